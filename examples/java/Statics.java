// Initializers of classes, and what they set.
class Statics {
    static int count = 7;
    static final int[] TABLE;
    static final String TEXT = "constant";
    static String late;
    volatile int seen;
    transient long mark = 5L;

    static {
        TABLE = new int[count];
        for (int i = 0; i < TABLE.length; i++) {
            TABLE[i] = i * i;
        }
        late = TEXT + count;
    }

    {
        seen = Holder.VALUE;
    }

    static class Holder {
        static final int VALUE = make();

        static int make() {
            return ++count;
        }
    }

    enum Level {
        LOW(1), MIDDLE(5) {
            @Override
            int weight() {
                return 50;
            }
        },
        HIGH(9);

        private final int rank;

        Level(int rank) {
            this.rank = rank;
        }

        int weight() {
            return rank;
        }
    }

    native int outside(long handle, double[] data);

    @Deprecated
    strictfp double exact(double x) {
        return x * mark;
    }

    public static void main(String[] args) {
        int sum = new Statics().seen;
        for (Level level : Level.values()) {
            sum += level.weight();
        }
        assert sum > 0 : "positive";
        System.out.println(sum + late + TABLE[3]);
    }
}
