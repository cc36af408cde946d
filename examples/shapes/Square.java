/** A square. */
class Square extends Shape {
    int area() {
        return size * size;
    }
}
