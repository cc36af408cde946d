/** So many pieces of a price, in cents. */
class Item {
    int price;
    int count;

    Item(int price, int count) {
        this.price = price;
        this.count = count;
    }

    int cost() {
        return price * count;
    }
}
