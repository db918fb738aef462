"""checks.py: what check_tools.py and check_documents.py share: the repository's files, and how many checks held."""
import os
import sys

TOP = os.path.realpath(os.path.join(os.path.dirname(os.path.abspath(__file__)), ".."))


def text_of(path):
    """Returns the text of a file of the repository."""
    with open(os.path.join(TOP, path), encoding="utf-8") as it:
        return it.read()


class Checks:
    """Checks of one kind. Each that fails is a line; the last line says how many held."""

    def __init__(self, kind):
        self.kind = kind
        self.held, self.failed = 0, 0

    def holds(self, what, is_so):
        if is_so:
            self.held += 1
        else:
            self.failed += 1
            print(f"check_{self.kind}: FAILED: {what}")

    def end(self, least):
        """Ends the program. With fewer than the least the checks have looked at next to nothing."""
        self.holds(f"there are at least {least} checks", self.held >= least)
        print(f"{self.held} checks of {self.kind} held, {self.failed} failed")
        sys.exit(1 if self.failed else 0)
