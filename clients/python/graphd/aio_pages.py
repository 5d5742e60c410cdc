"""Rows that come page by page, for asyncio, as in `graphd.pages`."""
from __future__ import annotations

import asyncio
import contextlib
from typing import TYPE_CHECKING, Any, AsyncIterator, Dict, Mapping, Optional, Type

from .answers import Result, Row
from .pages import Rows
from .refusals import NotSent, Refused

if TYPE_CHECKING:
    from .aio import Requests


class Stream(Rows, AsyncIterator[Row]):
    """The rows of a query, page by page: what `stream` of a session or a pool gives. The query is asked when the first row is wanted.

    Rows that aren't taken are held for it by the server, which drops them at `aclose`, at the end of an `async with` block, and soon after
    nobody has the stream any more, as after a `break`: at the latest where the session's block ends. Where a page is refused, the rest
    is still held, and can be asked for again. Tasks don't share a stream.
    """

    def __init__(self, requests: "Requests", request: Dict[str, Any], given: Mapping[str, Any]) -> None:
        super().__init__(request, given)
        self._requests = requests
        self._loop: Optional[asyncio.AbstractEventLoop] = None

    def __aiter__(self) -> "Stream":
        return self

    async def __anext__(self) -> Row:
        while True:
            row = self._next()
            if row is not None:
                return row
            if self._has_ended():
                raise StopAsyncIteration
            await self._fetch()

    async def _fetch(self) -> None:
        self._loop = asyncio.get_running_loop()
        self._is_in_doubt = True
        try:
            result = await self._asked()
        except (Refused, NotSent):
            self._is_in_doubt = False
            raise
        self._is_in_doubt = False
        self._keep(result)

    async def _asked(self) -> Result:
        if self.page is None:
            return await self._requests._answered(self._request, self._given)
        return await self._requests._pulled(self.page, self.columns)

    async def aclose(self) -> None:
        """Drops the rows that weren't taken. In a transaction they are dropped after its end."""
        page = self._leave()
        if page is not None:
            self._requests._left.append(page)
            await self._requests._drop_left()

    async def __aenter__(self) -> "Stream":
        return self

    async def __aexit__(self, kind: Optional[Type[BaseException]], fault: Optional[BaseException], trace: object) -> None:
        await self.aclose()

    def __del__(self) -> None:
        page = self._leave()
        if page is not None and self._loop is not None:
            self._requests._left.append(page)
            # (a loop that has ended drops nothing)
            with contextlib.suppress(RuntimeError):
                self._loop.call_soon_threadsafe(self._requests._start_drops)
