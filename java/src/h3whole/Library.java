package h3whole;

import java.io.IOException;
import java.io.InputStream;
import java.nio.charset.StandardCharsets;
import java.nio.file.Files;
import java.nio.file.Path;
import java.nio.file.attribute.PosixFilePermission;
import java.nio.file.attribute.PosixFilePermissions;
import java.security.MessageDigest;
import java.security.NoSuchAlgorithmException;
import java.util.EnumSet;
import java.util.Locale;

/**
 * Loads the shared object, once in each class loader: the file that {@code -Dh3whole.library} names, or else the one in
 * the jar. That one is copied to a private folder, where its digest is checked, and removed as soon as it is loaded.
 */
final class Library {
    /** The version of this package, which the shared object has to have. */
    static final String VERSION = "1.3.0";

    private static final String PROPERTY = "h3whole.library";
    private static final String FILE = "libh3whole_java.so";

    private Library() {}

    /** Loads the shared object, or throws an UnsatisfiedLinkError that says what to do. */
    static void load() {
        String path = System.getProperty(PROPERTY);
        if (path == null) {
            loadFromJar();
        } else {
            loadFile(Path.of(path).toAbsolutePath(), "-D" + PROPERTY + "=" + path);
        }
        checkVersion(path == null ? "the shared object in the jar" : path);
    }

    private static void loadFile(Path file, String named) {
        try {
            System.load(file.toString());
        } catch (UnsatisfiedLinkError error) {
            throw failure("cannot load " + named + ": " + error.getMessage(), error);
        }
    }

    private static void checkVersion(String file) {
        int number;
        try {
            number = Native.version();
        } catch (UnsatisfiedLinkError error) {
            throw failure(file + " is not " + FILE + " of h3whole " + VERSION, error);
        }
        String found = number / 10000 + "." + number / 100 % 100 + "." + number % 100;
        if (!found.equals(VERSION)) {
            throw failure(file + " is of version " + found + ", and the package of " + VERSION, null);
        }
    }

    private static UnsatisfiedLinkError failure(String text, Throwable cause) {
        UnsatisfiedLinkError error = new UnsatisfiedLinkError("h3whole: " + text);
        error.initCause(cause);
        return error;
    }

    /** The folder of this system's shared object in the jar, as {@code linux-x86_64}. */
    private static String platform() {
        String system = System.getProperty("os.name", "").toLowerCase(Locale.ROOT);
        String machine = System.getProperty("os.arch", "");
        return system + "-" + (machine.equals("amd64") ? "x86_64" : machine);
    }

    private static byte[] resource(String name) throws IOException {
        try (InputStream stream = Library.class.getResourceAsStream(name)) {
            return stream == null ? null : stream.readAllBytes();
        }
    }

    private static void loadFromJar() {
        String name = "/native/" + platform() + "/" + FILE;
        byte[] bytes;
        byte[] digest;
        try {
            bytes = resource(name);
            digest = resource(name + ".sha256");
        } catch (IOException error) {
            throw failure("cannot read " + name + " in the jar: " + error, error);
        }
        if (bytes == null || digest == null) {
            throw failure("there is no " + name + " in the jar; -D" + PROPERTY + "=FILE names another " + FILE, null);
        }
        unpackAndLoad(bytes, new String(digest, StandardCharsets.US_ASCII).trim());
    }

    private static void unpackAndLoad(byte[] bytes, String digest) {
        String temporary = System.getProperty("java.io.tmpdir");
        String advice =
                "; set -Djava.io.tmpdir to a folder with room in which files may be executed, or -D"
                        + PROPERTY
                        + " to a copy of "
                        + FILE;
        Path folder = null;
        Path file = null;
        try {
            EnumSet<PosixFilePermission> owner =
                    EnumSet.of(
                            PosixFilePermission.OWNER_READ,
                            PosixFilePermission.OWNER_WRITE,
                            PosixFilePermission.OWNER_EXECUTE);
            folder =
                    Files.createTempDirectory(
                            Path.of(temporary), "h3whole-", PosixFilePermissions.asFileAttribute(owner));
            file = folder.resolve(FILE);
            Files.write(file, bytes);
            if (!hex(Files.readAllBytes(file)).equals(digest)) {
                throw new IOException("its digest is not the one in the jar");
            }
            System.load(file.toString());
        } catch (IOException error) {
            throw failure("cannot unpack the shared object to " + temporary + ": " + error + advice, error);
        } catch (UnsatisfiedLinkError error) {
            String found = temporary + ": " + error.getMessage();
            throw failure("cannot load the shared object from " + found + advice, error);
        } finally {
            remove(file);
            remove(folder);
        }
    }

    /** (what cannot be removed stays: the library works all the same) */
    private static void remove(Path path) {
        try {
            if (path != null) {
                Files.deleteIfExists(path);
            }
        } catch (IOException ignored) {
            return;
        }
    }

    private static String hex(byte[] bytes) {
        StringBuilder text = new StringBuilder();
        try {
            for (byte part : MessageDigest.getInstance("SHA-256").digest(bytes)) {
                text.append(Character.forDigit(part >> 4 & 15, 16)).append(Character.forDigit(part & 15, 16));
            }
        } catch (NoSuchAlgorithmException error) {
            throw new AssertionError("each Java platform has SHA-256", error);
        }
        return text.toString();
    }
}
