"""Rows page by page: how many a page has, and whether a person wants the next one."""
import sys

import tables

MOST = 10_000  # rows of a page
AROUND = 4  # lines of a screen that no row has: columns, a rule, what is printed below, and the prompt
UPRIGHT = 4  # lines that a row is taken to have, where each value has one of its own
ASKED = "a key goes on, q drops the rest, k keeps it"
DROPS, KEEPS = "drops", "keeps"


class Paging:
    """Pages of so many rows, or of as many as a screen has room for. Where nobody watches, one comes after the other."""

    def __init__(self, rows=None, is_watched=False):
        self.rows, self.is_watched = rows, is_watched

    def size(self, is_upright):
        """The rows of a page."""
        if self.rows is not None:
            return self.rows
        room = max(1, tables.terminal()[1] - AROUND)
        return min(MOST, max(1, room // UPRIGHT) if is_upright else room)

    def choice(self):
        """What becomes of the rows that are left: DROPS, KEEPS, or None where the next ones are wanted."""
        if not self.is_watched:
            return None
        try:
            # (an interrupt may come as soon as a person sees this)
            sys.stdout.write(ASKED)
            sys.stdout.flush()
            key = _key()
        except KeyboardInterrupt:
            key = "q"
        finally:
            sys.stdout.write("\r" + " " * len(ASKED) + "\r")
            sys.stdout.flush()
        # (the end of input is none that goes on)
        return DROPS if key in ("q", "Q", "\x04", "") else KEEPS if key in ("k", "K") else None


def _key():
    """The next key, without waiting for the end of a line; empty at the end of input."""
    import termios
    import tty

    before = termios.tcgetattr(sys.stdin)
    try:
        tty.setcbreak(sys.stdin, termios.TCSADRAIN)
        return sys.stdin.buffer.raw.read(1).decode(errors="replace")
    finally:
        termios.tcsetattr(sys.stdin, termios.TCSADRAIN, before)
