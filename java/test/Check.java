import h3whole.H3Exception;
import java.util.Arrays;
import java.util.concurrent.Callable;

/** Counts what is checked: a line for each that fails, and the counts at the end, which are the exit status. */
final class Check {
    private static int passed;
    private static int failed;

    private Check() {}

    static synchronized void that(String name, boolean holds) {
        if (holds) {
            passed++;
        } else {
            failed++;
            System.out.println("not " + name);
        }
    }

    /** Compares, arrays by what they hold. */
    static void same(String name, Object found, Object wanted) {
        boolean holds = Arrays.deepEquals(new Object[] {found}, new Object[] {wanted});
        that(holds ? name : name + ": " + shown(found) + ", and not " + shown(wanted), holds);
    }

    private static String shown(Object value) {
        String text = Arrays.deepToString(new Object[] {value});
        return text.length() > 300 ? text.substring(0, 300) + ".." : text;
    }

    /** A call that throws an error of H3: its message. */
    static void refused(String wanted, Callable<?> call) {
        try {
            same(wanted, call.call(), "an error");
        } catch (H3Exception error) {
            same(wanted, error.getMessage(), wanted);
        } catch (Exception error) {
            same(wanted, error.toString(), wanted);
        }
    }

    /** A call that throws another exception. */
    static void thrown(Class<? extends Throwable> wanted, Callable<?> call) {
        try {
            same(wanted.getName(), call.call(), "an exception");
        } catch (Throwable error) {
            same(wanted.getName() + ", " + error, error.getClass(), wanted);
        }
    }

    static void end() {
        System.out.println(passed + " passed, " + failed + " failed");
        System.exit(failed > 0 ? 1 : 0);
    }
}
