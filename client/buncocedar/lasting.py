"""What is made once and stays up to the end of the process: Python's collector need not look through it time and again."""

from __future__ import annotations

import contextlib
import gc
from typing import Iterator


@contextlib.contextmanager
def lasting() -> Iterator[None]:
    """What is made meanwhile, and what there is, is passed over by the collector of what nobody needs, from then on."""
    was_enabled = gc.isenabled()
    gc.disable()
    try:
        yield
    finally:
        gc.freeze()
        if was_enabled:
            gc.enable()
