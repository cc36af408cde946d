// Interfaces, abstract classes and calls through them.
interface Shape {
    double SCALE = 1.5;

    double area();

    String name();
}

interface Scaled extends Shape {
    Scaled times(double factor);
}

abstract class Named implements Shape {
    private final String name;
    protected static int made;

    Named(String name) {
        this.name = name;
        made++;
    }

    @Override
    public String name() {
        return name;
    }

    @Override
    public abstract double area();
}

class Circle extends Named implements Scaled {
    private final double radius;

    Circle(double radius) {
        super("circle");
        this.radius = radius;
    }

    @Override
    public double area() {
        return Math.PI * radius * radius;
    }

    @Override
    public Circle times(double factor) {
        return new Circle(radius * factor * SCALE);
    }
}

class Box extends Named {
    final double width, height;

    Box(double width, double height) {
        super("box");
        this.width = width;
        this.height = height;
    }

    @Override
    public double area() {
        return width * height;
    }
}

class Square extends Box {
    Square(double side) {
        super(side, side);
    }

    @Override
    public String name() {
        return "square, a " + super.name();
    }
}

class Shapes {
    static double total(Shape... shapes) {
        double total = 0;
        for (Shape shape : shapes) {
            total += shape.area();
            if (shape instanceof Scaled) {
                total += ((Scaled) shape).times(2).area();
            }
        }
        return total;
    }

    public static void main(String[] args) {
        System.out.println(total(new Circle(1), new Box(2, 3), new Square(4)) + Named.made);
    }
}
