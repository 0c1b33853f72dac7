"""A file system whose files take every byte, and tell only when they are closed that there is no room: run by
tests/command/faults.

python3 failed_flush.py FOLDER    mounts it there, until it is unmounted"""
import errno
import stat
import sys

import fusepy


class FailedFlush(fusepy.Operations):
    def __init__(self):
        self.names = set()

    def getattr(self, path, fh=None):
        if path == "/":
            return {"st_mode": stat.S_IFDIR | 0o755, "st_nlink": 2}
        if path not in self.names:
            raise fusepy.FuseOSError(errno.ENOENT)
        return {"st_mode": stat.S_IFREG | 0o644, "st_nlink": 1, "st_size": 0}

    def create(self, path, mode, fi=None):
        self.names.add(path)
        return 1

    def truncate(self, path, length, fh=None):
        pass

    def write(self, path, data, offset, fh):
        return len(data)

    def flush(self, path, fh):
        raise fusepy.FuseOSError(errno.EDQUOT)


fusepy.FUSE(FailedFlush(), sys.argv[1], foreground=True, nothreads=True)
