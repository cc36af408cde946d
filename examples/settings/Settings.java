/** What is set once, when the class is initialized. */
class Settings {
    static int[] limits = new int[2];
    static int reserve = 5;
    static int retries = 3;

    static {
        limits[0] = 60;
        limits[1] = 90;
    }
}
