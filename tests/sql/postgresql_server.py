"""A PostgreSQL server with the extension: a copy of the installed server in a temporary folder, where `make install`
puts the extension, so that nothing of the system is changed. It listens on a socket in that folder alone, and is
stopped and removed at the end, whatever happens. root runs it as another user, since PostgreSQL refuses root."""
import contextlib
import os
import pwd
import shutil
import subprocess
import tempfile

ROOT = os.path.dirname(os.path.dirname(os.path.dirname(os.path.realpath(__file__))))


def asked(what):
    return subprocess.run(["pg_config", f"--{what}"], capture_output=True, text=True, check=True).stdout.strip()


class Server:
    """A server, with its files."""

    def __init__(self, place):
        self.tables = f"{place}{asked('sharedir')}/extension/h3whole"
        self.data, self.socket, self.log = (os.path.join(place, name) for name in ("data", "socket", "log"))

    def command(self, *words):
        return [
            asked("bindir") + "/psql",
            "-X",
            "-q",
            "-A",
            "-t",
            "-v",
            "ON_ERROR_STOP=1",
            "-v",
            "VERBOSITY=terse",
            "-h",
            self.socket,
            "-U",
            "postgres",
            "-d",
            "postgres",
            *words,
        ]

    def psql(self, text):
        """What psql writes for some statements, without the last line feed, or the first error."""
        ran = subprocess.run(self.command(), input=text, capture_output=True, text=True, check=False)
        if ran.returncode:
            return ran.stderr.strip().split("ERROR:  ")[-1].split("\n")[0]
        return ran.stdout[:-1]


def own_words(*words):
    """The words that run a program as the server's user."""
    return [*(["runuser", "-u", "postgres", "--"] if os.geteuid() == 0 else []), *words]


def copy_server(place, words):
    """Copies the server, with the extension: its programs find their files beside them. The extension is built from a
    copy of its sources, since make would take what was built beside them."""
    sources = os.path.join(place, "sql")
    shutil.copytree(os.path.join(ROOT, "sql"), sources, ignore=shutil.ignore_patterns("*.o", "*.so"))
    made = subprocess.run(
        [
            "make",
            "-s",
            "-C",
            os.path.join(sources, "postgresql"),
            "install",
            f"DESTDIR={place}",
            f"H3WHOLE_LIB_DIR={ROOT}/lib",
            f"H3WHOLE_INCLUDE_DIR={ROOT}/include",
            *words,
        ],
        capture_output=True,
        text=True,
        check=False,
    )
    if made.returncode or made.stderr:
        raise RuntimeError(f"make install: {made.stdout[-1000:]} {made.stderr[-3000:]}")
    bin_folder = asked("bindir")
    os.makedirs(place + bin_folder, exist_ok=True)
    for program in ("postgres", "initdb", "pg_ctl"):
        shutil.copy(os.path.join(bin_folder, program), place + bin_folder)
    for folder in (asked("pkglibdir"), asked("sharedir")):
        subprocess.run(["cp", "-rsn", f"{folder}/.", f"{place}{folder}/"], check=True)


def new_data(place, programs):
    """A server that doesn't run, of these programs, with a new database below a folder."""
    found = Server(place)
    for folder in (found.data, found.socket):
        os.makedirs(folder)
    with open(found.log, "w", encoding="utf-8"):
        pass
    if os.geteuid() == 0:
        user = pwd.getpwnam("postgres")
        os.chmod(place, 0o755)
        for path in (found.data, found.socket, found.log):
            os.chown(path, user.pw_uid, user.pw_gid)
    subprocess.run(
        own_words(f"{programs}/initdb", "-D", found.data, "-U", "postgres", "-A", "trust", "--no-sync"),
        cwd="/",
        stdout=subprocess.DEVNULL,
        check=True,
    )
    return found


@contextlib.contextmanager
def prepared(*words):
    """A server that doesn't run, with a new database: the server, and its programs. `words` are those of make."""
    with tempfile.TemporaryDirectory() as place:
        copy_server(place, words)
        programs = place + asked("bindir")
        yield new_data(place, programs), programs


@contextlib.contextmanager
def started(found, programs, settings):
    """A server while it runs."""
    options = " ".join(f"-c {setting}" for setting in ("listen_addresses=", "fsync=off", *settings))
    control = own_words(f"{programs}/pg_ctl", "-D", found.data, "-l", found.log, "-w", "-t", "600")
    try:
        subprocess.run(
            [*control, "-o", f"-k {found.socket} {options}", "start"],
            cwd="/",
            stdout=subprocess.DEVNULL,
            check=True,
        )
        yield found
    finally:
        subprocess.run(
            [*control, "-m", "immediate", "stop"],
            cwd="/",
            stdout=subprocess.DEVNULL,
            stderr=subprocess.DEVNULL,
            check=False,
        )


@contextlib.contextmanager
def server(*words, settings=()):
    """A server while it is used."""
    with prepared(*words) as (found, programs), started(found, programs, settings):
        yield found


@contextlib.contextmanager
def plain_server(settings=()):
    """The installed server without the extension, over a new database in a temporary folder, while it is used."""
    programs = asked("bindir")
    with tempfile.TemporaryDirectory() as place, started(new_data(place, programs), programs, settings) as found:
        yield found
