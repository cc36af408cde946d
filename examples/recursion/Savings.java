/** Savings that rise by the same sum each year. */
class Savings {
    static int after(int years, int start, int rise) {
        if (years == 0) {
            return start;
        }
        return after(years - 1, start, rise) + rise;
    }

    public static void main(String[] args) {
        int own = after(10, 300, 25);
        int other = after(8, 500, 40);
        int both = own + other;
    }
}
