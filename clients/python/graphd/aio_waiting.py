"""Waiting for so long at most, for asyncio."""
from __future__ import annotations

import asyncio
from typing import Any, Awaitable, Callable, Optional, TypeVar

Result = TypeVar("Result")


async def within(work: Awaitable[Result], timeout: Optional[float], unwanted: Optional[Callable[[Result], Any]] = None) -> Result:
    """What the work gives. Raises an asyncio.TimeoutError where it takes longer than `timeout` seconds, None for any time.

    Whoever waits and is cancelled is cancelled, also where the result comes at the same moment; `asyncio.wait_for` loses a cancellation
    then, before Python 3.12. A result that nobody takes is given to `unwanted`.
    """
    task = asyncio.ensure_future(work)
    try:
        await asyncio.wait({task}, timeout=timeout)
    except asyncio.CancelledError:
        _drop(task, unwanted)
        raise
    if not task.done():
        _drop(task, unwanted)
        raise asyncio.TimeoutError
    return task.result()


def _drop(task: "asyncio.Future[Result]", unwanted: Optional[Callable[[Result], Any]]) -> None:
    def dropped(done: "asyncio.Future[Result]") -> None:
        if not done.cancelled() and done.exception() is None and unwanted is not None:
            unwanted(done.result())

    task.cancel()
    task.add_done_callback(dropped)
