"""What a conversion did: each change with its line, and what it could not do."""

import sys


class Telling:
    """Gathers what is told of one file, and writes it in the order of the lines."""

    def __init__(self, name):
        """`name` is the name of the file that is converted."""
        self.name = name
        self.changes = []
        self.faults = []

    def change(self, line, was, became, lost="nothing"):
        """At `line` stood `was`; it became `became`, and `lost` says what that takes away."""
        self.changes.append((line, f"{was} became {became}; lost: {lost}"))

    def cannot(self, line, what):
        """At `line` stands `what`, which has no form here; it is left as it is."""
        self.faults.append((line, f"can't: {what}"))

    def write(self, into=sys.stderr):
        """Writes a line for each change and fault, and returns whether there was no fault."""
        for line, text in sorted(self.changes + self.faults, key=lambda told: told[0]):
            print(f"{self.name}: line {line}: {text}", file=into)
        changes, faults = len(self.changes), len(self.faults)
        print(f"{self.name}: {changes} changes, {faults} faults", file=into)
        return not self.faults
