"""A refusal in words: what it means and what to do, and where a query's text is wrong."""
import client_path  # (finds the package graphd)
from graphd import REFUSALS
from tables import safe, width

ROOM = 100  # columns of a line of the text that is shown
BEFORE = 60  # columns of it before the fault, at most


def told(code, name):
    """A refusal in words, where the text isn't known."""
    kind = REFUSALS.get(code)
    return f"refused: {name} ({code})" + (f"\n  {kind.advice}" if kind else "")


def lines(fault):
    """The lines that tell a refusal: for a fault of a query's text its line, with carets below the place, and what is wrong there."""
    place = fault.place
    if place is None:
        return told(fault.code, fault.name).splitlines()
    head = f"refused: {fault.name} ({fault.code}) at line {place.line}, column {place.column}"
    return [head, *_pointed_at(fault.text, place), f"  {safe(place.why)}"]


def _pointed_at(text, place):
    """The line of the text with the fault, cut round it where it is long, and carets below."""
    begin = place.offset - place.column + 1
    ends = [at for at in (text.find(mark, place.offset) for mark in "\r\n") if at >= 0]
    end = min(ends, default=len(text))
    first = max(begin, place.offset - BEFORE)
    before = ("…" if first > begin else "") + _shown(text[first : place.offset])
    at = _shown(text[place.offset : min(end, place.offset + place.length)])
    rest = _shown(text[place.offset + place.length : max(place.offset + place.length, min(end, first + ROOM))])
    seen = before + at + rest + ("…" if first + ROOM < end else "")
    return [f"  {seen}"[: ROOM + BEFORE], "  " + " " * width(before) + "^" * max(1, min(width(at), ROOM))]


def _shown(text):
    return safe(text.replace("\t", " "))
