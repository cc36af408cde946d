// A small interpreter: instructions as objects of an abstract class, and a table of operators.
class Machine {
    private final int[] stack = new int[64];
    private int top;

    abstract static class Step {
        abstract int run(Machine machine, int at);
    }

    static final class Push extends Step {
        private final int value;

        Push(int value) {
            this.value = value;
        }

        @Override
        int run(Machine machine, int at) {
            machine.stack[machine.top++] = value;
            return at + 1;
        }
    }

    static final class Jump extends Step {
        private final int to;
        private final boolean always;

        Jump(int to, boolean always) {
            this.to = to;
            this.always = always;
        }

        @Override
        int run(Machine machine, int at) {
            return always || machine.stack[--machine.top] != 0 ? to : at + 1;
        }
    }

    static final class Apply extends Step {
        private final Operator operator;

        Apply(Operator operator) {
            this.operator = operator;
        }

        @Override
        int run(Machine machine, int at) {
            int right = machine.stack[--machine.top];
            int left = machine.stack[--machine.top];
            machine.stack[machine.top++] = operator.apply(left, right);
            return at + 1;
        }
    }

    enum Operator {
        PLUS {
            @Override
            int apply(int a, int b) {
                return a + b;
            }
        },
        MINUS {
            @Override
            int apply(int a, int b) {
                return a - b;
            }
        },
        LESS {
            @Override
            int apply(int a, int b) {
                return a < b ? 1 : 0;
            }
        };

        abstract int apply(int a, int b);
    }

    int run(Step[] steps) {
        int at = 0;
        while (at >= 0 && at < steps.length) {
            at = steps[at].run(this, at);
        }
        return top > 0 ? stack[top - 1] : -1;
    }

    public static void main(String[] args) {
        Step[] steps = { new Push(3), new Push(4), new Apply(Operator.PLUS), new Push(1), new Apply(Operator.MINUS), new Jump(9, true) };
        System.out.println(new Machine().run(steps) + Operator.LESS.apply(1, 2));
    }
}
