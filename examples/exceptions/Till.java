/** Takes a payment, and notes what is owed. */
class Till {
    static int owed;

    static void pay(int price, int money) throws Refused {
        if (price > money) {
            throw new Refused(price - money);
        }
    }

    static void buy(int money) throws Refused {
        pay(130, money);
    }

    public static void main(String[] args) {
        try {
            buy(100);
        } catch (Refused refused) {
            owed = refused.missing;
        }
    }
}
