import java.lang.annotation.ElementType;
import java.lang.annotation.Retention;
import java.lang.annotation.RetentionPolicy;
import java.lang.annotation.Target;

// Annotations of all places, and threads.
@Marks.Note(value = "class", numbers = { 1, 2 })
class Marks implements Runnable {
    @Retention(RetentionPolicy.RUNTIME)
    @interface Note {
        String value() default "none";

        int[] numbers() default {};

        Class<?> type() default Object.class;
    }

    @Retention(RetentionPolicy.CLASS)
    @Target({ ElementType.PARAMETER, ElementType.FIELD })
    @interface Hidden {
    }

    @Hidden
    private int done;

    @Note(type = String.class)
    static int marked(@Hidden @Note int n, @Note("x") Object... rest) {
        return n + rest.length;
    }

    @Override
    public void run() {
        synchronized (this) {
            done++;
        }
    }

    public static void main(String[] args) throws InterruptedException {
        Marks marks = new Marks();
        Thread thread = new Thread(marks);
        thread.start();
        thread.join();
        System.out.println(marks.done + marked(1, (Object[]) args));
    }
}
