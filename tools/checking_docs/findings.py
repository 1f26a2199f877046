"""What was found: how many cites hold, and a line for each that doesn't."""


class Findings:
    """The faults, and how many checks passed."""

    def __init__(self):
        self.passed, self.faults = 0, []

    def check(self, good, place, line, fault):
        """One check of a document, or of a file by its name, at a line, or of it as a whole where that is None."""
        if good:
            self.passed += 1
        else:
            name = getattr(place, "name", place)
            self.faults.append((name, line or 0, f"{name}:{line}: {fault}" if line else f"{name}: {fault}"))

    def lines(self):
        """The faults by document and line, and the sum."""
        return [text for _, _, text in sorted(self.faults)] + [f"{self.passed} passed, {len(self.faults)} failed"]
