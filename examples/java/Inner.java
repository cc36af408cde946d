import java.util.Iterator;
import java.util.NoSuchElementException;

// Classes inside of others: of an object, of a class, of a method, and without a name.
class Inner implements Iterable<Integer> {
    private int[] items = { 3, 1, 2 };
    private int changes;

    class Place implements Iterator<Integer> {
        private int at;

        @Override
        public boolean hasNext() {
            return at < items.length;
        }

        @Override
        public Integer next() {
            if (!hasNext()) {
                throw new NoSuchElementException();
            }
            return items[at++];
        }

        @Override
        public void remove() {
            Inner.this.changes++;
        }
    }

    static class Pair<A, B extends Comparable<B>> {
        final A first;
        final B second;

        Pair(A first, B second) {
            this.first = first;
            this.second = second;
        }

        <C> Pair<C, B> with(C first) {
            return new Pair<C, B>(first, second);
        }
    }

    interface Action {
        void run(int n);
    }

    @Override
    public Iterator<Integer> iterator() {
        return new Place();
    }

    int sum() {
        final int[] sum = { 0 };
        class Adder implements Action {
            @Override
            public void run(int n) {
                sum[0] += n;
            }
        }
        each(new Adder());
        each(new Action() {
            @Override
            public void run(int n) {
                sum[0] *= n;
                changes += n;
            }
        });
        return sum[0];
    }

    private void each(Action action) {
        for (int item : this) {
            action.run(item);
        }
    }

    public static void main(String[] args) {
        System.out.println(new Inner().sum() + new Pair<String, Integer>("x", 1).with(2L).second);
    }
}
