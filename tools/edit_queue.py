"""The crates whose edits wait to be tried, perhaps beside another run that still builds the libraries below them."""
from __future__ import annotations

import os
import threading
import time
from typing import Callable, List, Optional, TypeVar

T = TypeVar("T")


class Queue:
    """Gives each of some crates once, the first that is ready. Where `end` names a file, another run makes further ones ready until
    that file is there; what is not ready then stays in `left`."""

    def __init__(self, chosen: List[T], is_ready: Callable[[T], bool], end: Optional[str] = None, seconds_between: float = 3):
        self.left, self.is_ready, self.end, self.seconds_between = [*chosen], is_ready, end, seconds_between
        self.lock = threading.Lock()

    def next(self) -> Optional[T]:
        """Takes the first crate that is ready, waiting for one if need be; None where none will be."""
        while True:
            is_over = not self.end or os.path.exists(self.end)
            with self.lock:
                for crate in self.left:
                    if self.is_ready(crate):
                        self.left.remove(crate)
                        return crate
                if is_over or not self.left:
                    return None
            time.sleep(self.seconds_between)
