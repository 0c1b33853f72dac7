"""The record of the wrong edits that the proofs refused, tests/edits/refused, for .ci/edits.

A line has a digest of all that the check of an edit reads, the edit's name, and why it is to be looked at, if it is.
What is here decides which edits are tried, and not how one is judged, so it is not part of the digests.
"""
import os
import random
import sys

HEAD = (
    "# The wrong edits that the proofs refused: a digest of all that the check of each read, its name, and why it is",
    "# to be looked at, if it is. .ci/edits --record writes it.",
)
# One in so many of the edits that were refused before is tried again.
ONE_IN = 20


class Record:
    """The lines of the file, by the names of the edits: the digest and the reason."""

    def __init__(self, file):
        self.file, self.lines = file, {}
        self.read()

    def read(self):
        for line in self.file.read_text(encoding="utf-8").splitlines() if self.file.is_file() else []:
            if not line.startswith("#"):
                digest, name, *why = line.split(" ", 2)
                self.lines[name] = digest, "".join(why)

    def has(self, name, digest):
        return self.lines.get(name, ("",))[0] == digest

    def put(self, crate, lines):
        """Writes the lines of a crate anew, at once. (Another run may have written those of others.)"""
        self.read()
        others = {name: line for name, line in self.lines.items() if name.partition("/")[0] != crate}
        self.lines = {**others, **lines}
        body = (f"{digest} {name} {why}".rstrip() for name, (digest, why) in sorted(self.lines.items()))
        new = self.file.with_name("refused.new")
        new.write_text("".join(f"{line}\n" for line in (*HEAD, *body)), encoding="utf-8")
        new.replace(self.file)

    def old(self, digests):
        """How many of the edits with these digests have no line or an old one, by crates, if there is a record."""
        counts = {}
        for name, digest in digests.items() if self.lines else ():
            crate = name.partition("/")[0]
            if not self.has(name, digest):
                counts[crate] = counts.get(crate, 0) + 1
        return counts


def some_of(names):
    """One in twenty of these names, at random, and on standard error the seed by which that can be repeated."""
    seed = os.environ.get("EDITS_SEED") or str(random.SystemRandom().randrange(10**9))
    chosen = random.Random(seed).sample(sorted(names), len(names) // ONE_IN)
    if chosen:
        print(f"edits: tries {len(chosen)} of these again: EDITS_SEED={seed} .ci/edits", file=sys.stderr, flush=True)
    return set(chosen)
