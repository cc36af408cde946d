// Numbers of all types, and conversions.
class Arithmetic {
    static final int BIG = 123456789;
    static final long HUGE = 1234567890123456789L;
    static final float THIRD = 1f / 3;
    static final double E = 2.718281828459045;

    static long factorial(int n) {
        long product = 1;
        while (n > 1) {
            product *= n--;
        }
        return product;
    }

    static double root(double x) {
        double guess = x;
        for (int i = 0; i < 40; i++) {
            guess = (guess + x / guess) / 2;
        }
        return guess;
    }

    static long mixed(byte b, short s, char c, int i, long l, float f, double d) {
        long sum = b + s + c;
        sum ^= i << 3 | i >>> 5;
        sum += (l >> 2) % 7 - ~l;
        sum += (long) (f * 2.5f);
        sum -= (int) d;
        return d > E || f <= THIRD ? sum & HUGE : -sum;
    }

    static int gcd(int a, int b) {
        return b == 0 ? a : gcd(b, a % b);
    }

    static byte low(int x) {
        return (byte) (x & 0xff);
    }

    static char letter(int x) {
        return (char) ('a' + x % 26);
    }

    public static void main(String[] args) {
        System.out.println(factorial(20));
        System.out.println(root(2));
        System.out.println(mixed((byte) 1, (short) 2, 'c', BIG, HUGE, THIRD, E));
        System.out.println(gcd(84, 36) + low(300) + letter(27));
    }
}
