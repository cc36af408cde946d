// A linked queue with a type parameter, and the usual uses of it.
class Chain<T> {
    private static final class Cell<T> {
        final T item;
        Cell<T> next;

        Cell(T item) {
            this.item = item;
        }
    }

    private Cell<T> first, last;
    private int size;

    void put(T item) {
        Cell<T> cell = new Cell<T>(item);
        if (last == null) {
            first = cell;
        } else {
            last.next = cell;
        }
        last = cell;
        size++;
    }

    T take() {
        if (first == null) {
            return null;
        }
        T item = first.item;
        first = first.next;
        if (first == null) {
            last = null;
        }
        size--;
        return item;
    }

    static int drain(Chain<? extends Number> queue) {
        int sum = 0;
        do {
            Number next = queue.take();
            if (next == null) {
                break;
            }
            sum += next.intValue();
        } while (true);
        return sum;
    }

    public static void main(String[] args) {
        Chain<Integer> queue = new Chain<Integer>();
        outer:
        for (int i = 0; i < 10; i++) {
            for (int j = 0; j < i; j++) {
                if (i * j == 42) {
                    break outer;
                }
                if (j > 5) {
                    continue outer;
                }
            }
            queue.put(i);
        }
        System.out.println(drain(queue) + queue.size);
    }
}
