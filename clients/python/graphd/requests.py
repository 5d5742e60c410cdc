"""Requests as bodies, and what replies tell: the same for every kind of session."""
from __future__ import annotations

import json
from typing import Any, Callable, Dict, List, Mapping, Optional, Tuple, TypeVar

from .answers import Result, Row, Status
from .connections import MAX_BODY
from .refusals import FrameTooLong, NotGraphd, refusal
from .values import Parameter, check_parameter, value_of


def checked_token(token: str) -> str:
    """The token. Raises a TypeError where it is no text."""
    if not isinstance(token, str):
        raise TypeError(f"a token is a text, and not of type {type(token).__name__}")
    return token


def query_of(
    text: str, params: Optional[Mapping[str, Parameter]], named: Mapping[str, Parameter], size: Optional[int] = None
) -> Tuple[Dict[str, Any], Dict[str, Parameter]]:
    """The request of a query, in pages of `size` rows where that is passed, and all its parameters. Raises a TypeError or a ValueError
    where the text or one of these is none."""
    twice = sorted(set(params or {}) & set(named))
    if twice:
        raise ValueError(f"the parameter {twice[0]} is given twice")
    given = {**(params or {}), **named}
    if not isinstance(text, str):
        raise TypeError(f"a query is a text, and not of type {type(text).__name__}")
    check_parameter("the query", text)
    for name, value in given.items():
        check_parameter(name, value)
    request: Dict[str, Any] = {"op": "query", "text": text}
    if given:
        request["params"] = given
    if size is not None:
        request["page"] = size
    return request, given


def body_of(request: Mapping[str, Any], token: str) -> bytes:
    """The body of a request with its token. Raises FrameTooLong where it is too long (a server answers so too, and ends the connection)."""
    body = json.dumps({**request, "token": token}, ensure_ascii=False, separators=(",", ":")).encode("utf-8", "surrogatepass")
    if len(body) > MAX_BODY:
        raise FrameTooLong()
    return body


def told_by(reply: bytes) -> Dict[str, Any]:
    """The object of a reply's body. Raises a Refused where the request was refused, and NotGraphd where it is none."""
    try:
        told: Dict[str, Any] = json.loads(reply)
        code = told["code"]
    except (ValueError, TypeError, KeyError):
        raise NotGraphd(f"a reply that isn't graphd's: {reply[:80]!r}") from None
    if code != 0:
        raise refusal(code, told.get("error", "Refused"))
    return told


Shape = TypeVar("Shape")


def _shaped(shape: Callable[[Dict[str, Any]], Shape], told: Dict[str, Any]) -> Shape:
    try:
        return shape(told)
    except (KeyError, TypeError, ValueError):
        raise NotGraphd("a reply of another form than graphd's") from None


def result_of(told: Dict[str, Any]) -> Result:
    """The result that a query's reply tells. Raises NotGraphd where it tells none."""
    return _shaped(_result, told)


def pulled_of(told: Dict[str, Any], columns: List[str]) -> Result:
    """The result in a pull's reply, of rows with these columns. Raises NotGraphd where there is none."""
    return _shaped(_result, {**told, "columns": columns, "steps": 0})


def status_of(told: Dict[str, Any]) -> Status:
    """The status that a reply tells. Raises NotGraphd where it tells none."""
    return _shaped(_status, told)


def _result(told: Dict[str, Any]) -> Result:
    columns, page = told["columns"], told.get("page")
    if not (page is None or isinstance(page, int)):
        raise TypeError
    return Result(columns, [Row(columns, [value_of(value) for value in row]) for row in told["rows"]], told["steps"], page)


def _status(told: Dict[str, Any]) -> Status:
    names = ("elements", "max_elements", "max_steps", "next_node", "next_rel")
    return Status(indexes=[(label, key) for label, key in told["indexes"]], **{name: told[name] for name in names})
