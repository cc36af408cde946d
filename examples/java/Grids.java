// Arrays of arrays, and loops over them.
class Grids {
    static int[][] square(int side) {
        int[][] cells = new int[side][side];
        for (int row = 0; row < side; row++) {
            for (int column = 0; column < side; column++) {
                cells[row][column] = row * side + column;
            }
        }
        return cells;
    }

    static int[][] ragged(int rows) {
        int[][] cells = new int[rows][];
        for (int row = 0; row < rows; row++) {
            cells[row] = new int[row + 1];
            cells[row][row] = row;
        }
        return cells;
    }

    static long sum(long[][][] cube) {
        long sum = 0;
        for (long[][] plane : cube) {
            for (long[] line : plane) {
                for (long cell : line) {
                    sum += cell;
                }
            }
        }
        return sum;
    }

    static String[][] names() {
        return new String[][] { { "a", "b" }, {}, { "c" } };
    }

    static boolean[] primes(int below) {
        boolean[] composite = new boolean[below];
        for (int i = 2; i < below; i++) {
            if (composite[i]) {
                continue;
            }
            for (int j = i + i; j < below; j += i) {
                composite[j] = true;
            }
        }
        return composite;
    }

    public static void main(String[] args) {
        System.out.println(square(3)[1][2] + ragged(4)[3][3] + sum(new long[2][3][4]) + names().length + primes(20).length);
    }
}
