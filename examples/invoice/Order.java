/** Items that are bought together. */
class Order {
    Item[] items = new Item[8];
    int size;
    int discount;

    void add(Item item) {
        items[size] = item;
        size = size + 1;
    }

    int cost() {
        int sum = 0;
        for (int i = 0; i < size; i++) {
            sum = sum + items[i].cost();
        }
        return sum;
    }
}
