/** A shape of some size. */
abstract class Shape {
    int size;

    abstract int area();
}
