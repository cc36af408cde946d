/** Numbers, a copy of them, and numbers that are not copied. */
class Backup {
    public static void main(String[] args) {
        int[] numbers = new int[4];
        int[] copy = new int[5];
        int[] others = new int[6];
        int place = 2;
        numbers[place] = 70;
        others[place] = 90;
        System.arraycopy(numbers, 0, copy, 1, 3);
        int copied = copy[3];
        int other = others[2];
    }
}
