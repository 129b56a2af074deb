"""Which rows passed, and which failed."""

import contextlib
import sys
import threading
import traceback

# How much is shown of what differs.
SHOWN = 300


class Judge:
    """Counts the rows. Rows may be judged by several threads at once."""

    def __init__(self):
        self.passed = self.failed = 0
        self.lock = threading.Lock()

    def equal(self, what, got, wanted):
        """Passes where both are equal."""
        self.true(what, got == wanted, f"got {shown(got)}, wanted {shown(wanted)}")

    def most(self, what, got, most):
        """Passes where the number is not greater than that."""
        self.true(what, got <= most, f"got {shown(got)}, at most {shown(most)}")

    def least(self, what, got, least):
        """Passes where the number is not less than that."""
        self.true(what, got >= least, f"got {shown(got)}, at least {shown(least)}")

    def within(self, what, part, whole):
        """Passes where the first stands within the second."""
        self.true(what, part in whole, f"got {shown(whole)}, which should have {shown(part)}")

    def true(self, what, holds, otherwise):
        with self.lock:
            if holds:
                self.passed += 1
            else:
                self.failed += 1
                print(f"{what}: {otherwise}", flush=True)

    @contextlib.contextmanager
    def part(self, what):
        """A part that fails where it can't be played to its end."""
        try:
            yield
        except Exception as error:  # whatever stops a part is one failed row, and the other parts are played
            traceback.print_exc(file=sys.stdout)
            self.true(what, False, f"stopped by {error!r}")


def shown(value):
    text = repr(value)
    return text if len(text) <= SHOWN else f"{text[:SHOWN]}.. ({len(text)} characters)"
