"""What the server answers: results of queries, and a tenant's status."""
from __future__ import annotations

from dataclasses import dataclass
from typing import Any, Dict, Iterator, List, Optional, Sequence, Tuple, Union, overload


class Row(Sequence[Any]):
    """A row: its values by place, or by the name of their column. `dict(row)` gives a dict."""

    def __init__(self, columns: List[str], values: List[Any]) -> None:
        self.columns, self.values = columns, values

    @overload
    def __getitem__(self, place: Union[int, str]) -> Any: ...

    @overload
    def __getitem__(self, place: slice) -> List[Any]: ...

    def __getitem__(self, place: Union[int, str, slice]) -> Any:
        """The value at a place, counted from 0, or of a column. Raises an IndexError or a KeyError where there is none."""
        if not isinstance(place, str):
            return self.values[place]
        if place not in self.columns:
            raise KeyError(f"no column {place!r}: there are {', '.join(self.columns)}")
        return self.values[self.columns.index(place)]

    def get(self, column: str, default: Any = None) -> Any:
        """The value of a column, or the default where there is no such column."""
        return self[column] if column in self.columns else default

    def keys(self) -> List[str]:
        """The names of the columns, in their order."""
        return list(self.columns)

    def __len__(self) -> int:
        return len(self.values)

    def __eq__(self, other: object) -> bool:
        if not isinstance(other, (Row, list, tuple)):
            return NotImplemented
        return self.values == list(other)

    def __repr__(self) -> str:
        return f"Row({dict(zip(self.columns, self.values))!r})"


@dataclass(frozen=True)
class Result:
    """What a query answers: the names of its columns, its rows in their order, and the steps that it took.

    Where rows come page by page, `page` is the number under which the tenant holds those that are left, and None where none is. What a pull
    gives took no steps, and has the names of columns where it was asked for by a result.
    """

    columns: List[str]
    rows: List[Row]
    steps: int
    page: Optional[int] = None

    def __iter__(self) -> Iterator[Row]:
        return iter(self.rows)

    def __len__(self) -> int:
        """The number of rows."""
        return len(self.rows)

    def single(self) -> Row:
        """The only row. Raises a ValueError where there is none, or more than one."""
        if len(self.rows) != 1:
            raise ValueError(f"one row is wanted, and {len(self.rows)} came")
        return self.rows[0]

    def value(self) -> Any:
        """The only value of the only row. Raises a ValueError where there is another number of rows or columns."""
        if len(self.rows) != 1 or len(self.columns) != 1:
            raise ValueError(f"{len(self.rows)} rows of {len(self.columns)} columns are no single value")
        return self.rows[0][0]

    def data(self) -> List[Dict[str, Any]]:
        """The rows as dicts, from column to value."""
        return [dict(zip(self.columns, row.values)) for row in self.rows]


@dataclass(frozen=True)
class Status:
    """What a tenant has and may have.

    `elements` counts nodes and relationships together, of which there may be `max_elements`; a request may take `max_steps` steps;
    `next_node` and `next_rel` are the ids that the next elements get; `indexes` has a label and a key for each index, in their order.
    """

    elements: int
    max_elements: int
    max_steps: int
    next_node: int
    next_rel: int
    indexes: List[Tuple[str, str]]
