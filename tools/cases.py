"""Cases of a script that runs programs: each has a line, which begins with `ok` or `FAILED`; below
one that failed stands what was wanted and what came."""
import subprocess


class Wrong(Exception):
    """What came is not what a daemon may answer."""


CAME_BETWEEN = (OSError, Wrong, subprocess.TimeoutExpired)  # a case fails by them

failed = 0  # how many did


class Case:
    """A case: its line is printed at the end of the block, with what was found wrong in it."""

    def __init__(self, name):
        self.name, self.faults = name, []

    def __enter__(self):
        return self

    def wants(self, what, wanted, came):
        if wanted != came:
            self.faults.append(f"wanted {what} {shortened(wanted)}, and it is {shortened(came)}")

    def wants_at_most(self, what, most, came):
        if came > most:
            self.faults.append(f"wanted at most {most} {what}, and it is {came}")

    def says(self, what):
        """The line ends so."""
        self.name += f": {what}"

    def __exit__(self, kind, error, _):
        global failed
        if kind and not issubclass(kind, CAME_BETWEEN):
            return False
        if kind:
            self.faults.append(f"{kind.__name__}: {error}")
        print(f"{'FAILED' if self.faults else 'ok':<7}{self.name}", flush=True)
        for fault in self.faults:
            print(f"       {fault}")
        failed += bool(self.faults)
        return True


def left_out(name, why):
    print(f"{'--':<7}{name}: {why}")


def shortened(what):
    text = repr(what)
    return text if len(text) < 300 else f"{text[:300]} .."


def status():
    """The status of the script, once it has said how many cases failed."""
    print(f"{failed} failed" if failed else "all as wanted")
    return 1 if failed else 0
