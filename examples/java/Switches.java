// Switches on numbers near and far apart, on texts and on constants of an enum.
class Switches {
    enum Day { MONDAY, TUESDAY, SUNDAY }

    static String near(int n) {
        switch (n) {
            case 0: return "none";
            case 1: return "one";
            case 2:
            case 3: return "few";
            default: return "many";
        }
    }

    static int far(int n) {
        int sum = 0;
        switch (n) {
            case -1000000: sum += 1;
            case 7: sum += 2; break;
            case 4096: sum += 4; break;
            case Integer.MAX_VALUE: sum += 8;
        }
        return sum;
    }

    static int word(String word) {
        switch (word) {
            case "Aa": return 1;
            case "BB": return 2;
            case "": return 3;
            default: return 0;
        }
    }

    static boolean free(Day day) {
        switch (day) {
            case SUNDAY: return true;
            default: return false;
        }
    }

    public static void main(String[] args) {
        System.out.println(near(2) + far(7) + word("BB") + free(Day.SUNDAY));
    }
}
