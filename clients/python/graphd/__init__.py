"""A client of graphd, the property graph server. It needs Python's standard library alone.

    from graphd import connect

    graph = connect(7687, "a1")
    with graph:                                       # one connection for the block
        graph.query("CREATE (n:Service {name: $name})", name="mail")
        for row in graph.query("MATCH (n:Service) RETURN n.name AS name, n"):
            print(row["name"], row["n"].labels)

    for row in graph.stream("MATCH (n:Service) RETURN n", page=100):
        print(row["n"]["name"])                       # a hundred rows come at a time, and the server holds the others

    with graph.transaction():                         # all of the block takes effect, or nothing where an exception leaves it
        graph.query("MATCH (n:Service {name: $name}) SET n.port = 25", name="mail")
        graph.query("MATCH (n:Service {name: $name}) SET n.port = 80", name="web")

`connect` gives a session of a server that listens, `pool` one for many threads at once, `start` one of a server of one's own; `graphd.aio`
has the same words for asyncio. `explained` tells what a query tries and which indexes serve. A refusal is an exception with its number, its
name, what to do (`advice`), and where a query's text is wrong (`place`).

Values, from Python to graphd and back: None, bool, int (64 bits signed), str, list and dict with text keys; from graphd also Node,
Relationship and Path. There are no floats.
"""
from .answers import Result, Row, Status
from .diagnosis import Place, fault_of
from .plans import ClausePlan, explained
from .refusals import (
    NAMES, REFUSALS, ConnectionLost, GraphdError, NotGraphd, NotSent, Refused, TimedOut, FrameTooLong, BadRequest,
    UnknownToken, ReadOnly, TextTooLong, BadLexeme, BadSyntax, TooDeep, UndefinedVariable, VariableAlreadyBound,
    BadAggregate, BadPattern, UnknownFunction, DuplicateColumn, MissingParameter, TypeFault, Overflow,
    DivisionByZero, ValueTooLarge, NotStorable, MergeNull, NodeStillConnected, DeletedEntity, NegativeCount,
    StepQuota, ElementQuota, IdsExhausted, IndexExists, NoSuchIndex, TooManyIndexes, ReplyTooLong, TenantBusy,
    NoTransaction, TransactionOpen, NoSuchPage, HeldRowsQuota, OutOfMemory,
)
from .pages import Stream
from .sessions import Pool, Session, connect, pool, start
from .transactions import Transaction
from .values import Node, Parameter, Path, Relationship, Value, spelt, value_of

__version__ = "1.24.0"

__all__ = [
    "connect", "pool", "start", "Session", "Pool", "Transaction", "Stream", "Result", "Row", "Status", "Node", "Relationship", "Path",
    "Value", "Parameter", "spelt", "value_of", "Place", "fault_of", "ClausePlan", "explained", "NAMES", "REFUSALS", "ConnectionLost",
    "GraphdError", "NotGraphd", "NotSent", "Refused", "TimedOut", "FrameTooLong", "BadRequest", "UnknownToken",
    "ReadOnly", "TextTooLong", "BadLexeme", "BadSyntax", "TooDeep", "UndefinedVariable", "VariableAlreadyBound",
    "BadAggregate", "BadPattern", "UnknownFunction", "DuplicateColumn", "MissingParameter", "TypeFault", "Overflow",
    "DivisionByZero", "ValueTooLarge", "NotStorable", "MergeNull", "NodeStillConnected", "DeletedEntity",
    "NegativeCount", "StepQuota", "ElementQuota", "IdsExhausted", "IndexExists", "NoSuchIndex", "TooManyIndexes",
    "ReplyTooLong", "TenantBusy", "NoTransaction", "TransactionOpen", "NoSuchPage", "HeldRowsQuota", "OutOfMemory",
]
