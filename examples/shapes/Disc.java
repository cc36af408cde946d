/** A disc, of about this area. */
class Disc extends Shape {
    int area() {
        return 3 * size * size;
    }
}
