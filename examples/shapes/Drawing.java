/** A drawing with a disc and a square. */
class Drawing {
    public static void main(String[] args) {
        Shape disc = new Disc();
        disc.size = 5;
        Shape square = new Square();
        square.size = 4;
        int left = disc.area();
        int right = square.area();
    }
}
