import java.io.Closeable;
import java.io.IOException;

// Handlers, nested and with a last block, and resources.
class Exceptions {
    static class Refused extends Exception {
        final int code;

        Refused(int code) {
            super("code " + code);
            this.code = code;
        }
    }

    static class Gone extends RuntimeException {
    }

    static class Handle implements Closeable {
        private boolean open = true;

        void use(int times) throws Refused {
            if (times > 2) {
                throw new Refused(times);
            }
            if (!open) {
                throw new Gone();
            }
        }

        @Override
        public void close() throws IOException {
            if (!open) {
                throw new IOException("twice");
            }
            open = false;
        }
    }

    static int last(int n) {
        int seen = 0;
        try {
            seen = 10 / n;
            return seen;
        } catch (ArithmeticException e) {
            seen = -1;
        } finally {
            seen++;
        }
        return seen;
    }

    static int nested(int times) {
        try {
            try (Handle handle = new Handle()) {
                handle.use(times);
                return 1;
            } catch (Refused e) {
                return e.code;
            } finally {
                times++;
            }
        } catch (IOException | Gone e) {
            return times;
        }
    }

    static synchronized int locked(Object lock, int n) {
        synchronized (lock) {
            for (int i = 0; ; i++) {
                if (i * i > n) {
                    return i;
                }
            }
        }
    }

    public static void main(String[] args) {
        System.out.println(last(0) + last(5) + nested(1) + nested(3) + locked(args, 50));
    }
}
