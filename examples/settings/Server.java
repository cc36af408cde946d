/** Reads how many guests may come. */
class Server {
    public static void main(String[] args) {
        int limit = Settings.limits[0];
        int free = limit - Settings.reserve;
        int attempts = Settings.retries;
    }
}
