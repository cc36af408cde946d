/** Sells an order. What is to be paid is wrong: it is 780 cents, and should be 880. */
class Shop {
    static int toPay;

    static Order order() {
        Order order = new Order();
        order.add(new Item(250, 2));
        order.add(new Item(480, 1));
        return order;
    }

    static void welcome(Order order, Coupon coupon) {
        coupon.applyTo(order);
    }

    static int total(Order order, Coupon coupon) {
        coupon.applyTo(order);
        return order.cost() - order.discount;
    }

    public static void main(String[] args) {
        Order order = order();
        Order other = new Order();
        other.add(new Item(120, 5));
        Coupon coupon = new Coupon(100);
        welcome(order, coupon);
        toPay = total(order, coupon);
    }
}
