import java.lang.reflect.InvocationTargetException;
import java.net.URL;
import java.net.URLClassLoader;
import java.nio.file.Files;
import java.nio.file.Path;
import java.util.stream.Collectors;
import java.util.stream.Stream;

/**
 * The jar in two class loaders at once, of which each has a library of its own; and no file of it is left. One file
 * that {@code -Dh3whole.library} names is refused to the second.
 */
final class Loaders {
    private Loaders() {}

    private static Object parent(ClassLoader loader) throws ReflectiveOperationException {
        Class<?> kind = loader.loadClass("h3whole.H3");
        return kind.getMethod("cellToParentAddress", String.class, int.class).invoke(null, "85283473fffffff", 4);
    }

    private static String error(ClassLoader loader) throws ReflectiveOperationException {
        try {
            return parent(loader).toString();
        } catch (InvocationTargetException error) {
            return error.getCause().toString();
        }
    }

    private static void named(URL[] jar, String library) throws Exception {
        try (URLClassLoader one = new URLClassLoader(jar, null);
                URLClassLoader other = new URLClassLoader(jar, null)) {
            Check.same("one", parent(one), "8428347ffffffff");
            Check.same("other", error(other),
                    "java.lang.UnsatisfiedLinkError: h3whole: cannot load -Dh3whole.library=" + library
                            + ": Native Library " + library + " already loaded in another classloader");
            Check.same("one again", parent(one), "8428347ffffffff");
        }
        Check.end();
    }

    public static void main(String[] words) throws Exception {
        URL[] jar = {Path.of(words[0]).toUri().toURL()};
        String library = System.getProperty("h3whole.library");
        if (library != null) {
            named(jar, library);
        }
        try (URLClassLoader one = new URLClassLoader(jar, null);
                URLClassLoader other = new URLClassLoader(jar, null)) {
            Check.same("one", parent(one), "8428347ffffffff");
            Check.same("other", parent(other), "8428347ffffffff");
            Check.same("one again", parent(one), "8428347ffffffff");
            Check.that("two classes", one.loadClass("h3whole.H3") != other.loadClass("h3whole.H3"));
        }
        try (Stream<Path> left = Files.list(Path.of(System.getProperty("java.io.tmpdir")))) {
            Check.same("what is left", left.filter(file -> file.getFileName().toString().startsWith("h3whole"))
                    .collect(Collectors.toList()).toString(), "[]");
        }
        Check.end();
    }
}
