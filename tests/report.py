"""What a script of this folder reports."""


class Report:
    """What a script reports of its cases, and the status that it ends with."""

    def __init__(self, name):
        self.name = name
        self.passed = 0
        self.failed = 0

    def case(self, faults):
        """Counts a case, and prints what is wrong with it, a line each."""
        if faults:
            self.failed += 1
        else:
            self.passed += 1
        for fault in faults:
            print('%s: %s' % (self.name, fault), flush=True)

    def expect(self, right, what):
        """Counts a case, and prints what is wrong with it, where it is not right."""
        self.case([] if right else [what])

    def end(self, left_out=''):
        """Prints how many cases there were, and which were left out, and why."""
        print('%s: %d passed, %d failed%s' % (self.name, self.passed, self.failed, left_out and ', not run: ' + left_out))
        return 1 if self.failed or not self.passed else 0

    def skip(self, why):
        """Prints why nothing was run."""
        print('%s: 0 passed, 0 failed, not run: %s' % (self.name, why))
        return 0
