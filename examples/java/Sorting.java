import java.util.Comparator;

// Sorting by several orders, and a matrix of numbers.
class Sorting {
    static final Comparator<String> BY_LENGTH = new Comparator<String>() {
        @Override
        public int compare(String a, String b) {
            return a.length() < b.length() ? -1 : a.length() > b.length() ? 1 : a.compareTo(b);
        }
    };

    static <T> void insert(T[] items, Comparator<? super T> order) {
        for (int i = 1; i < items.length; i++) {
            T item = items[i];
            int j = i;
            for (; j > 0 && order.compare(items[j - 1], item) > 0; j--) {
                items[j] = items[j - 1];
            }
            items[j] = item;
        }
    }

    static void quick(double[] items, int low, int high) {
        if (low >= high) {
            return;
        }
        double pivot = items[(low + high) >>> 1];
        int i = low, j = high;
        while (i <= j) {
            while (items[i] < pivot) i++;
            while (items[j] > pivot) j--;
            if (i <= j) {
                double held = items[i];
                items[i++] = items[j];
                items[j--] = held;
            }
        }
        quick(items, low, j);
        quick(items, i, high);
    }

    static float[][] product(float[][] a, float[][] b) {
        float[][] c = new float[a.length][b[0].length];
        for (int i = 0; i < a.length; i++)
            for (int j = 0; j < b[0].length; j++)
                for (int k = 0; k < b.length; k++)
                    c[i][j] += a[i][k] * b[k][j];
        return c;
    }

    public static void main(String[] args) {
        String[] words = { "ccc", "a", "bb" };
        insert(words, BY_LENGTH);
        double[] items = { 3, 1, 2 };
        quick(items, 0, 2);
        System.out.println(words[0] + items[0] + product(new float[][] { { 1, 2 } }, new float[][] { { 3 }, { 4 } })[0][0]);
    }
}
