"""What the checks in python3 share: each case is counted, one that fails has a line, and the last
line is NAME: N passed, M failed, and `, K skipped` where there are any. tests/expect.sh is the same
for shell."""
import faulthandler
import os
import shutil
import signal
import subprocess
import sys

# a shell has what it runs in the background ignore an interrupt, and so would what is tried here
signal.signal(signal.SIGINT, signal.default_int_handler)
# and nohup a hangup: a handler that does nothing spares the check as before, while what it starts has the default again
for ignored in (signal.SIGHUP, signal.SIGQUIT, signal.SIGTERM, signal.SIGUSR1, signal.SIGALRM):
    if signal.getsignal(ignored) == signal.SIG_IGN:
        signal.signal(ignored, lambda *_: None)

# a check that waits without end says where it does, and fails
if "CHECK_MINUTES" in os.environ:
    faulthandler.dump_traceback_later(60 * int(os.environ["CHECK_MINUTES"]), exit=True)

CHECK = os.path.basename(sys.argv[0])
counts = {"passed": 0, "failed": 0, "skipped": 0}


def shown(found):
    """What a case found, in at most 200 characters."""
    return repr(found) if len(repr(found)) <= 200 else repr(found)[:150] + f".. ({len(repr(found))} characters)"


def expect(name, found, wanted):
    """Counts a case; one that is not as wanted is shown."""
    counts["passed" if found == wanted else "failed"] += 1
    if found != wanted:
        print(f"{CHECK}, {name}: {shown(found)}, and not {shown(wanted)}", flush=True)


def skip(name, missing):
    """Counts a case that cannot be tried here, and says what is missing."""
    counts["skipped"] += 1
    print(f"{CHECK}, {name}: skipped: {missing}", flush=True)


def has(name, *commands):
    """Whether these commands are installed. Where one is not, the case is skipped, and its line
    says what to install."""
    for command in commands:
        if shutil.which(command) is None:
            skip(name, f"there is no {command}; .ci/packages --install")
            return False
    return True


def shared_library(folder, source):
    """A library to load into a program, compiled of a source in C by cc, or by the toolchain's own compiler and linker
    where there is none."""
    toolchain = os.path.join(os.path.dirname(os.path.realpath(shutil.which("rt") or "")), "../toolchain/bin/clang")
    compiler = [shutil.which("cc")] if shutil.which("cc") else [toolchain, "-fuse-ld=lld"]
    library = os.path.join(folder, os.path.basename(source).replace(".c", ".so"))
    subprocess.run([*compiler, "-shared", "-fPIC", "-O1", "-nostdlib", "-o", library, source], check=True)
    return library


def finish():
    """Prints the counts, and ends the script."""
    skipped = f", {counts['skipped']} skipped" if counts["skipped"] else ""
    print(f"{CHECK}: {counts['passed']} passed, {counts['failed']} failed{skipped}")
    sys.exit(counts["failed"] > 0)
