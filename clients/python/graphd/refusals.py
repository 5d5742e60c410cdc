"""What can go wrong, as exceptions: each refusal of the server has a class, with its number, its name and what to do."""
from __future__ import annotations

from typing import Dict, Iterable, Optional, Tuple, Type

from .diagnosis import Place, fault_of


class GraphdError(Exception):
    """What the server refused, or that it can't be reached."""


class ConnectionLost(GraphdError):
    """The connection ended before the reply came. Whether the request took effect isn't known."""


class NotSent(ConnectionLost):
    """No server was reached, or the connection ended before the request was sent whole. It took no effect, and can be sent again."""


class TimedOut(ConnectionLost):
    """The reply didn't come in time. The request goes on in the server, and may take effect."""


class NotGraphd(GraphdError):
    """What answered isn't graphd: its reply has another form."""


class Refused(GraphdError):
    """A refused request: nothing of it took effect.

    `code` is its number, `name` its name and `advice` what to do, in words. `text` is the query's, where a query was refused.
    """

    code: int = 0
    name: str = "Refused"
    advice: str = ""

    def __init__(self, code: Optional[int] = None, name: Optional[str] = None) -> None:
        self.code = type(self).code if code is None else code
        self.name = type(self).name if name is None else name
        self.text: Optional[str] = None
        self.given: Tuple[str, ...] = ()
        super().__init__(self.code, self.name)

    @property
    def place(self) -> Optional[Place]:
        """Where the query's text is wrong and why, for a refusal that the text alone explains (6 to 15); None for the others."""
        if self.text is None:
            return None
        found = fault_of(self.text, self.given)
        return found if found is not None and found.code == self.code else None

    def of_query(self, text: str, given: Iterable[str]) -> "Refused":
        """The refusal with the text that it is about, and the names of the parameters that were given."""
        self.text, self.given = text, tuple(given)
        return self

    def __str__(self) -> str:
        place = self.place
        return f"{self.name} ({self.code})" + (f" at {place}" if place else f": {self.advice}" if self.advice else "")


class FrameTooLong(Refused):
    """Refusal 1. What to do is its `advice`."""

    code, name = 1, "FrameTooLong"
    advice = "the request is above 1 MiB: send large data as parameters of several requests"


class BadRequest(Refused):
    """Refusal 2. What to do is its `advice`."""

    code, name = 2, "BadRequest"
    advice = "the request is none that graphd reads: a parameter that isn't a whole number of 64 bits, a text, true, false, null, a list or a map of these, or one deeper than 64"


class UnknownToken(Refused):
    """Refusal 3. What to do is its `advice`."""

    code, name = 3, "UnknownToken"
    advice = "no session has this token: see the configuration's tokens"


class ReadOnly(Refused):
    """Refusal 4. What to do is its `advice`."""

    code, name = 4, "ReadOnly"
    advice = "this token may only read: use one with the right to write"


class TextTooLong(Refused):
    """Refusal 5. What to do is its `advice`."""

    code, name = 5, "TextTooLong"
    advice = "the text is above 65,536 bytes: send data as parameters, in several requests"


class BadLexeme(Refused):
    """Refusal 6. What to do is its `advice`."""

    code, name = 6, "BadLexeme"
    advice = "a character, string, name or number that isn't one of the language's: look for a missing quote, an unknown escape or a number with a leading zero"


class BadSyntax(Refused):
    """Refusal 7. What to do is its `advice`."""

    code, name = 7, "BadSyntax"
    advice = "the text can't be read as a query: look at what stands behind the last clause that is right"


class TooDeep(Refused):
    """Refusal 8. What to do is its `advice`."""

    code, name = 8, "TooDeep"
    advice = "brackets, CASE, NOT or signs are nested more than 64 deep"


class UndefinedVariable(Refused):
    """Refusal 9. What to do is its `advice`."""

    code, name = 9, "UndefinedVariable"
    advice = "a variable that isn't in scope: WITH passes on only what it names"


class VariableAlreadyBound(Refused):
    """Refusal 10. What to do is its `advice`."""

    code, name = 10, "VariableAlreadyBound"
    advice = "a variable that is there already: take another name, or leave out its labels and properties"


class BadAggregate(Refused):
    """Refusal 11. What to do is its `advice`."""

    code, name = 11, "BadAggregate"
    advice = "count, sum, min, max and collect may only be a whole item: give the aggregate a name by WITH and compute with that"


class BadPattern(Refused):
    """Refusal 12. What to do is its `advice`."""

    code, name = 12, "BadPattern"
    advice = "a pattern that isn't allowed here: a range needs an upper bound of at most 32, what CREATE makes one type and one direction"


class UnknownFunction(Refused):
    """Refusal 13. What to do is its `advice`."""

    code, name = 13, "UnknownFunction"
    advice = "no such function, or another number of arguments"


class DuplicateColumn(Refused):
    """Refusal 14. What to do is its `advice`."""

    code, name = 14, "DuplicateColumn"
    advice = "two columns of one name: give one of them another by AS"


class MissingParameter(Refused):
    """Refusal 15. What to do is its `advice`."""

    code, name = 15, "MissingParameter"
    advice = "a parameter of the text has no value: set it by :param"


class TypeFault(Refused):
    """Refusal 16. What to do is its `advice`."""

    code, name = 16, "TypeFault"
    advice = "a value of a kind that its place doesn't take"


class Overflow(Refused):
    """Refusal 17. What to do is its `advice`."""

    code, name = 17, "Overflow"
    advice = "a number beyond 64 bits signed"


class DivisionByZero(Refused):
    """Refusal 18. What to do is its `advice`."""

    code, name = 18, "DivisionByZero"
    advice = "a division by zero"


class ValueTooLarge(Refused):
    """Refusal 19. What to do is its `advice`."""

    code, name = 19, "ValueTooLarge"
    advice = "a value that is too large (1 MiB) or too deep (64)"


class NotStorable(Refused):
    """Refusal 20. What to do is its `advice`."""

    code, name = 20, "NotStorable"
    advice = "only true, false, whole numbers, texts and lists of these are stored"


class MergeNull(Refused):
    """Refusal 21. What to do is its `advice`."""

    code, name = 21, "MergeNull"
    advice = "MERGE can't look for a property that is null: test it before"


class NodeStillConnected(Refused):
    """Refusal 22. What to do is its `advice`."""

    code, name = 22, "NodeStillConnected"
    advice = "a node that still has relationships: use DETACH DELETE"


class DeletedEntity(Refused):
    """Refusal 23. What to do is its `advice`."""

    code, name = 23, "DeletedEntity"
    advice = "an element that was deleted before in the same query"


class NegativeCount(Refused):
    """Refusal 24. What to do is its `advice`."""

    code, name = 24, "NegativeCount"
    advice = "SKIP and LIMIT take no negative number"


class StepQuota(Refused):
    """Refusal 25. What to do is its `advice`."""

    code, name = 25, "StepQuota"
    advice = "the request needs more steps than its tenant may take: ask for less, or raise max_steps"


class ElementQuota(Refused):
    """Refusal 26. What to do is its `advice`."""

    code, name = 26, "ElementQuota"
    advice = "the tenant may have no more elements: delete some, or raise max_elements"


class IdsExhausted(Refused):
    """Refusal 27. What to do is its `advice`."""

    code, name = 27, "IdsExhausted"
    advice = "the tenant has given out all ids, or all numbers of pages"


class IndexExists(Refused):
    """Refusal 28. What to do is its `advice`."""

    code, name = 28, "IndexExists"
    advice = "this index is there already"


class NoSuchIndex(Refused):
    """Refusal 29. What to do is its `advice`."""

    code, name = 29, "NoSuchIndex"
    advice = "there is no such index"


class TooManyIndexes(Refused):
    """Refusal 30. What to do is its `advice`."""

    code, name = 30, "TooManyIndexes"
    advice = "a tenant has 16 indexes at most: drop one"


class ReplyTooLong(Refused):
    """Refusal 31. What to do is its `advice`."""

    code, name = 31, "ReplyTooLong"
    advice = "the reply is above 16 MiB and the query was undone: return less, with SKIP and LIMIT"


class TenantBusy(Refused):
    """Refusal 40. What to do is its `advice`."""

    code, name = 40, "TenantBusy"
    advice = "another token of the tenant has a transaction open: ask again once it has ended; where nobody is going to end it, that token's rollback does"


class NoTransaction(Refused):
    """Refusal 41. What to do is its `advice`."""

    code, name = 41, "NoTransaction"
    advice = "this token has no transaction open: none was begun, it was ended, or it was rolled back when its connection ended"


class TransactionOpen(Refused):
    """Refusal 42. What to do is its `advice`."""

    code, name = 42, "TransactionOpen"
    advice = "this token has a transaction open: commit it or roll it back first; outside of one indexes are made and dropped, and pages asked for"


class NoSuchPage(Refused):
    """Refusal 43. What to do is its `advice`."""

    code, name = 43, "NoSuchPage"
    advice = "this token holds no such page: its last row was given, it was dropped, another token has it, or the server was restarted"


class HeldRowsQuota(Refused):
    """Refusal 44. What to do is its `advice`."""

    code, name = 44, "HeldRowsQuota"
    advice = "the tenant may hold no more rows: pull or drop pages that are held, ask for less, or raise max_held"


class OutOfMemory(Refused):
    """Refusal 99. What to do is its `advice`."""

    code, name = 99, "OutOfMemory"
    advice = "the server found no memory; the request changed nothing, and can be sent again"


# the class of each refusal, by its number
REFUSALS: Dict[int, Type[Refused]] = {
    kind.code: kind
    for kind in (
        FrameTooLong, BadRequest, UnknownToken, ReadOnly, TextTooLong, BadLexeme, BadSyntax, TooDeep,
        UndefinedVariable, VariableAlreadyBound, BadAggregate, BadPattern, UnknownFunction, DuplicateColumn,
        MissingParameter, TypeFault, Overflow, DivisionByZero, ValueTooLarge, NotStorable, MergeNull,
        NodeStillConnected, DeletedEntity, NegativeCount, StepQuota, ElementQuota, IdsExhausted, IndexExists,
        NoSuchIndex, TooManyIndexes, ReplyTooLong, TenantBusy, NoTransaction, TransactionOpen, NoSuchPage,
        HeldRowsQuota, OutOfMemory,
    )
}
# the name of each refusal, by its number
NAMES: Dict[int, str] = {code: kind.name for code, kind in REFUSALS.items()}


def refusal(code: int, name: str) -> Refused:
    """The exception of a refusal, also of one that this client doesn't know."""
    return REFUSALS.get(code, Refused)(code, name)
