"""The checks of a script: one that is wrong is told at once, and the last line and the exit status tell how many were wrong."""


class Checks:
    """What each check of a run has found."""

    def __init__(self):
        self.found = []

    def claim(self, fault, is_so):
        """Counts a check, whose fault is told where it isn't so."""
        self.found.append(bool(is_so))
        if not is_so:
            print(fault)

    def check(self, name, got, wanted):
        """Checks that what came is what was wanted."""
        is_so = got == wanted
        self.claim("" if is_so else f"{name}: got {got!r}, wanted {wanted!r}", is_so)

    def wrong(self):
        """How many checks were wrong."""
        return self.found.count(False)

    def verdict(self, counted=None):
        """Prints the last line, with what was counted or else the number of checks, and gives the exit status."""
        print(f"{counted or f'{len(self.found)} checks'}, {self.wrong()} wrong")
        return 1 if self.wrong() else 0


# Those of the script that runs.
RUN = Checks()
check, claim, verdict = RUN.check, RUN.claim, RUN.verdict
