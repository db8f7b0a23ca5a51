"""Says on standard error that a step goes on, where it takes longer than a second."""
from __future__ import annotations

import sys
import threading
import time
from collections.abc import Iterator
from contextlib import contextmanager

FIRST, LATER = 1.0, 5.0


@contextmanager
def step(name: str, what: str) -> Iterator[None]:
    """Tells of the step after a second, then every five, and when such a step has ended."""
    ended = threading.Event()
    begun = time.monotonic()

    def tell() -> None:
        wait = FIRST
        while not ended.wait(wait):
            print(f"{name}: {what}, {time.monotonic() - begun:.0f} s", file=sys.stderr, flush=True)
            wait = LATER

    teller = threading.Thread(target=tell, daemon=True)
    teller.start()
    try:
        yield
    finally:
        ended.set()
        teller.join()
    took = time.monotonic() - begun
    if took >= FIRST:
        print(f"{name}: {what}: done, {took:.1f} s", file=sys.stderr, flush=True)
