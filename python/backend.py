"""Builds the package, with the shared object of libh3whole in it, so that what pip installs works alone. It takes
nothing but Python, so pip builds it where it reaches no network, with its isolation and without: see PEP 517 and PEP
660.

The shared object is the file that H3WHOLE_LIBRARY names, or else the one that tools/library made in this repository.

Where there are a compiler and Python's headers, it compiles native.c, which makes single calls faster, for any Python
from 3.10 on. `python3 backend.py` puts that into the package in this folder, for use from the tree."""

import base64
import gzip
import hashlib
import io
import os
import re
import subprocess
import sys
import sysconfig
import tarfile
import tempfile
import zipfile

NAME = "libh3whole.so.1"
HERE = os.path.dirname(os.path.realpath(__file__))
NATIVE = "_native.abi3.so"
SOURCES = ["README.md", "backend.py", "native.c", "pyproject.toml"]


def library():
    """The path of the shared object."""
    place = os.environ.get("H3WHOLE_LIBRARY") or os.path.join(HERE, "..", "lib", NAME)
    if not os.path.isfile(place):
        sys.exit(f"h3whole: there is no {place}: run tools/library first, or set H3WHOLE_LIBRARY to the path of {NAME}")
    return place


def read(path):
    with open(path, "rb") as file:
        return file.read()


def compile_native(folder):
    """Compiles the extension into a folder. False where there is no compiler, or no headers of Python 3.10 or later."""
    headers = sysconfig.get_paths()["include"]
    if sys.version_info < (3, 10) or not os.path.exists(os.path.join(headers, "Python.h")):
        return False
    words = [os.environ.get("CC", "cc"), "-O2", "-g0", "-fPIC", "-shared", "-s", f"-I{headers}"]
    try:
        subprocess.run([*words, "-o", os.path.join(folder, NATIVE), "native.c"], cwd=HERE, check=True)
    except (OSError, subprocess.CalledProcessError):
        return False
    return True


def native():
    """The extension as files of the package: one, or none."""
    with tempfile.TemporaryDirectory() as folder:
        return {f"h3whole/{NATIVE}": read(os.path.join(folder, NATIVE))} if compile_native(folder) else {}


def project():
    """The table `project` of pyproject.toml, which has texts only."""
    text = read(os.path.join(HERE, "pyproject.toml")).decode()
    return dict(re.findall(r'^([a-z-]+) = "(.*)"$', text.partition("[project]")[2], re.M))


def metadata():
    own = project()
    return (
        f"Metadata-Version: 2.1\nName: {own['name']}\nVersion: {own['version']}\nSummary: {own['description']}\n"
        f"License: {own['license']}\nRequires-Python: {own['requires-python']}\n"
        f"Description-Content-Type: text/markdown\n\n" + read(os.path.join(HERE, "README.md")).decode()
    ).encode()


def package():
    """The files of the package, by their names in it."""
    folder = os.path.join(HERE, "h3whole")
    names = [name for name in sorted(os.listdir(folder)) if name.endswith((".py", ".typed"))]
    return {f"h3whole/{name}": read(os.path.join(folder, name)) for name in names}


def record(files, place):
    """The list of the files of a wheel, with their digests."""
    lines = []
    for name, content in files.items():
        digest = base64.urlsafe_b64encode(hashlib.sha256(content).digest()).rstrip(b"=").decode()
        lines.append(f"{name},sha256={digest},{len(content)}\n")
    return "".join([*lines, f"{place},,\n"]).encode()


def write_wheel(folder, files):
    """Writes a wheel for any Python 3 of this kind of machine, and returns its name."""
    own = project()
    tag = "py3-none-" + re.sub("[-.]", "_", sysconfig.get_platform())
    info = f"{own['name']}-{own['version']}.dist-info"
    files = {**files, f"{info}/METADATA": metadata()}
    files[f"{info}/WHEEL"] = f"Wheel-Version: 1.0\nGenerator: h3whole\nRoot-Is-Purelib: false\nTag: {tag}\n".encode()
    files[f"{info}/RECORD"] = record(files, f"{info}/RECORD")
    wheel = f"{own['name']}-{own['version']}-{tag}.whl"
    with zipfile.ZipFile(os.path.join(folder, wheel), "w", zipfile.ZIP_DEFLATED) as out:
        for name, content in files.items():
            entry = zipfile.ZipInfo(name)
            entry.external_attr = 0o100644 << 16
            entry.compress_type = zipfile.ZIP_DEFLATED
            out.writestr(entry, content)
    return wheel


# ---- what pip calls


def build_wheel(wheel_directory, config_settings=None, metadata_directory=None):
    return write_wheel(wheel_directory, {**package(), **native(), f"h3whole/{NAME}": read(library())})


def build_editable(wheel_directory, config_settings=None, metadata_directory=None):
    return write_wheel(wheel_directory, {"h3whole.pth": f"{HERE}\n".encode()})


def build_sdist(sdist_directory, config_settings=None):
    """The sources, without the shared object: what is built of them takes that of H3WHOLE_LIBRARY."""
    own = project()
    top = f"{own['name']}-{own['version']}"
    files = {name: read(os.path.join(HERE, name)) for name in SOURCES}
    # (the same sources give the same bytes)
    with gzip.GzipFile(os.path.join(sdist_directory, f"{top}.tar.gz"), "wb", mtime=0) as packed, tarfile.open(
        fileobj=packed, mode="w", format=tarfile.PAX_FORMAT
    ) as out:
        for name, content in {**files, **package(), "PKG-INFO": metadata()}.items():
            entry = tarfile.TarInfo(f"{top}/{name}")
            entry.size = len(content)
            entry.mode = 0o644
            out.addfile(entry, io.BytesIO(content))
    return f"{top}.tar.gz"


if __name__ == "__main__":
    sys.exit(0 if compile_native(os.path.join(HERE, "h3whole")) else "h3whole: native.c was not compiled")
