"""Rows that come page by page."""
from __future__ import annotations

import sys
from typing import TYPE_CHECKING, Any, Dict, Iterator, List, Mapping, Optional, Type, Union

from .answers import Result, Row
from .refusals import ConnectionLost, GraphdError, NotSent, OutOfMemory, Refused, TenantBusy, TransactionOpen

if TYPE_CHECKING:
    from .sessions import Requests

PAGE = 1000  # rows of a page, where nothing else is asked for
LEAST_PAGE, MOST_PAGE = 1, 10_000
GREATEST_NUMBER = 2**63 - 1
LACKING = "no reply came when more rows were asked for: rows may be lacking from here on"


def checked_size(size: int) -> int:
    """The rows of a page. Raises a TypeError or a ValueError where no page has so many."""
    if not isinstance(size, int) or isinstance(size, bool):
        raise TypeError(f"a page has a number of rows, and not one of type {type(size).__name__}")
    if not LEAST_PAGE <= size <= MOST_PAGE:
        raise ValueError(f"a page has {LEAST_PAGE} to {MOST_PAGE:,} rows, and not {size}")
    return size


def number_of(page: Union[int, Result]) -> int:
    """The number of a page, or of the one that holds what is left of a result. Raises a TypeError or a ValueError where there is none."""
    number = page.page if isinstance(page, Result) else page
    if isinstance(page, Result) and number is None:
        raise ValueError("no row of this result is left")
    if not isinstance(number, int) or isinstance(number, bool):
        raise TypeError(f"a page has a number, or is a result, and not of type {type(page).__name__}")
    if not 0 <= number <= GREATEST_NUMBER:
        raise ValueError(f"no page has the number {number}")
    return number


def columns_of(page: Union[int, Result]) -> List[str]:
    """The columns of a result; of a number alone none are known."""
    return page.columns if isinstance(page, Result) else []


def may_be_held(fault: GraphdError) -> bool:
    """Whether a page that was to be dropped may still be held after this fault, and can be dropped later."""
    return not isinstance(fault, Refused) or isinstance(fault, (TransactionOpen, TenantBusy, OutOfMemory))


class Rows:
    """What streams of both kinds of clients share: the rows that came, and where the others are. `columns` has the names of the columns,
    and `steps` what the query took, once the first page came; `page` is the number under which rows are held, or None."""

    def __init__(self, request: Dict[str, Any], given: Mapping[str, Any]) -> None:
        self.columns: List[str] = []
        self.steps = 0
        self.page: Optional[int] = None
        self._request, self._given = request, given
        self._came: Iterator[Row] = iter(())
        self._is_begun = self._is_in_doubt = False

    def _next(self) -> Optional[Row]:
        """The next row of those that came, or None."""
        return next(self._came, None)

    def _has_ended(self) -> bool:
        """Whether no row is left. Raises a ConnectionLost where that isn't known."""
        if self._is_in_doubt:
            raise ConnectionLost(LACKING)
        return self._is_begun and self.page is None

    def _keep(self, result: Result) -> None:
        if not self._is_begun:
            self.columns, self.steps, self._is_begun = result.columns, result.steps, True
        self.page, self._came = result.page, iter(result.rows)

    def _leave(self) -> Optional[int]:
        """Ends it, and gives the number under which rows are held, or None."""
        page, self.page = self.page, None
        self._came, self._is_begun, self._is_in_doubt = iter(()), True, False
        return page


class Stream(Rows, Iterator[Row]):
    """The rows of a query, page by page: what `stream` of a session or a pool gives. The query is asked when the first row is wanted.

    Rows that aren't taken are held for it by the server, which drops them at `close`, at the end of a `with` block, and where nobody has
    the stream any more, as after a `break`. Where a page is refused, the rest is still held, and can be asked for again.
    """

    def __init__(self, requests: "Requests", request: Dict[str, Any], given: Mapping[str, Any]) -> None:
        super().__init__(request, given)
        self._requests = requests

    def __iter__(self) -> "Stream":
        return self

    def __next__(self) -> Row:
        while True:
            row = self._next()
            if row is not None:
                return row
            if self._has_ended():
                raise StopIteration
            self._fetch()

    def _fetch(self) -> None:
        self._is_in_doubt = True
        try:
            result = self._asked()
        except (Refused, NotSent):
            self._is_in_doubt = False
            raise
        self._is_in_doubt = False
        self._keep(result)

    def _asked(self) -> Result:
        if self.page is None:
            return self._requests._answered(self._request, self._given)
        return self._requests._pulled(self.page, self.columns)

    def close(self) -> None:
        """Drops the rows that weren't taken. In a transaction they are dropped after its end."""
        page = self._leave()
        if page is not None:
            self._requests._drop_later(page)

    def __enter__(self) -> "Stream":
        return self

    def __exit__(self, kind: Optional[Type[BaseException]], fault: Optional[BaseException], trace: object) -> None:
        self.close()

    def __del__(self) -> None:
        # (threads that answer are gone when all ends)
        if not sys.is_finalizing():
            self.close()
