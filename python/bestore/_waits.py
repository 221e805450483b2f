"""How a call that failed waits before it is tried again, and when it gives up."""

from __future__ import annotations

import random
import time
from typing import Optional

_YIELDS = 4        # the number of pauses that only yield
_LONGEST = 0.001   # seconds


class Waits:
    """The limits of a call: up to `tries` tries, and no try after `within` seconds, counted from the first failed try."""

    def __init__(self, tries: int, within: float) -> None:
        self.tries, self.within, self.failed = tries, within, 0
        self._until: Optional[float] = None

    def left(self) -> float:
        """Returns how many seconds are left. The time begins with the first call."""
        now = time.monotonic()
        if self._until is None:
            self._until = now + self.within
        return self._until - now

    def pause(self) -> bool:
        """Pauses after a failed try. Returns False without a pause if no tries or no time is left.

        The first pauses yield to other threads, and later ones get longer. Their lengths are random, so that threads that began
        together try at different times."""
        self.failed += 1
        if self.failed >= self.tries or self.left() <= 0:
            return False
        longest = 0 if self.failed <= _YIELDS else min(1e-6 * 2**min(self.failed, 32), _LONGEST)
        time.sleep(random.uniform(longest / 2, longest))
        return True
