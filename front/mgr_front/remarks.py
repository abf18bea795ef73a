"""What the front says in the echo line for a while, beside what mgr shows there."""

import math


class Remarks(dict[str, float]):
    """Remarks, each with the moment until which it stands; that is `math.inf` until somebody has taken note of it."""

    def acknowledge(self) -> None:
        """Forgets those that somebody has to take note of."""
        for text in [text for text, until in self.items() if until == math.inf]:
            del self[text]

    def at(self, now: float) -> list[str]:
        """Returns those that stand at a moment; the others are forgotten."""
        for text in [text for text, until in self.items() if until <= now]:
            del self[text]
        return list(self)

    def patience(self, now: float) -> float | None:
        """Returns the seconds until the next one ends."""
        first = min(self.values(), default=math.inf)
        return None if first == math.inf else max(0.0, first - now)
