/** A discount in cents. */
class Coupon {
    int cents;

    Coupon(int cents) {
        this.cents = cents;
    }

    void applyTo(Order order) {
        order.discount = order.discount + cents;
    }
}
