"""Runs of the program over streams of all kinds: what it writes and reports, and its status."""
import socket
import subprocess
import tempfile

READ, WRITE = (b"", "fault: read\n", 4), (b"", "fault: write\n", 4)


def run(words, listed, piece=0):
    """A run over a list, which comes in pieces of so many bytes, if not 0. The first word is the program."""
    if not piece:
        ran = subprocess.run(words, input=listed, capture_output=True, timeout=60, check=False)
        return ran.stdout, ran.stderr.decode(), ran.returncode
    with tempfile.TemporaryFile() as out, tempfile.TemporaryFile() as err:
        with subprocess.Popen(words, stdin=subprocess.PIPE, stdout=out, stderr=err, bufsize=0) as process:
            try:
                for at in range(0, len(listed), piece):
                    process.stdin.write(listed[at : at + piece])
                process.stdin.close()
            except BrokenPipeError:
                # (it ends at the first error)
                pass
        out.seek(0)
        err.seek(0)
        return out.read(), err.read().decode(), process.returncode


def over_streams(words, **streams):
    streams = {"stdin": subprocess.DEVNULL, "stdout": subprocess.PIPE, **streams}
    ran = subprocess.run(words, stderr=subprocess.PIPE, timeout=60, check=False, **streams)
    return ran.stdout or b"", ran.stderr.decode(), ran.returncode


def over_file(words, listed, stdout):
    """A run over a list in a file."""
    with tempfile.TemporaryFile() as given:
        given.write(listed)
        given.seek(0)
        return over_streams(words, stdin=given, stdout=stdout)


def after_reset(words, given):
    """A run whose list breaks after some bytes: the other end of a socket is closed before all is read."""
    theirs, ours = socket.socketpair()
    theirs.send(b"never read")
    with theirs, subprocess.Popen(words, stdin=theirs, stdout=subprocess.PIPE, stderr=subprocess.PIPE) as process:
        with ours:
            ours.sendall(given)
        out, err = process.communicate(timeout=60)
    return out, err.decode(), process.returncode
