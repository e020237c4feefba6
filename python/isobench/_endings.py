"""How the commands of the package end, and what they say."""
from __future__ import annotations

import os
import sys
from collections.abc import Callable

__all__ = ["end_of", "print_text", "say"]


def end_of(command: str, run: Callable[[], None], cure: str) -> int:
    """Run a command and say why it failed, if it does; the cure is for want of memory.

    Returns
    -------
    int
        The exit status: 0 done, 1 refused, failed or interrupted.
    """
    try:
        run()
        return 0
    except (OSError, ValueError, ImportError) as fault:
        say(command, fault)
    except MemoryError:
        say(command, f"out of memory: {cure}")
    except KeyboardInterrupt:
        say(command, "interrupted")
    return 1


def say(command: str, text: object) -> None:
    """Put a line of a command into standard error."""
    print(f"{command}: {text}", file=sys.stderr)


def print_text(text: str) -> None:
    """Print a text at once, so that a fault is this one's."""
    try:
        sys.stdout.write(text)
        sys.stdout.flush()
    except OSError:
        # What is left would be tried once more when the process ends.
        sys.stdout = open(os.devnull, "w", encoding="utf-8")
        raise
