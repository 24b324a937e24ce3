"""A list whose values are made when they are asked for."""
from typing import Any, Callable, Generic, Iterator, List, Optional, Sequence, Tuple, TypeVar, Union, overload

Value = TypeVar("Value")


class Lazily(Sequence[Value], Generic[Value]):
    """So many values, each made anew whenever it is asked for: of a long text who reads one attempt after another has
    only that one in memory. It equals each sequence of the same values."""

    __slots__ = ("_count", "_make", "_each")

    def __init__(
        self, count: int, make: Callable[[int], Value], each: Optional[Callable[[], Iterator[Value]]] = None
    ) -> None:
        # `each` makes one after another, if that is done sooner than by their numbers
        self._count, self._make, self._each = count, make, each

    def __len__(self) -> int:
        return self._count

    @overload
    def __getitem__(self, at: int) -> Value:
        ...

    @overload
    def __getitem__(self, at: slice) -> List[Value]:
        ...

    def __getitem__(self, at: Union[int, slice]) -> Union[Value, List[Value]]:
        numbers = range(self._count)[at]
        return self._make(numbers) if isinstance(numbers, int) else list(map(self._make, numbers))

    def __iter__(self) -> Iterator[Value]:
        return map(self._make, range(self._count)) if self._each is None else self._each()

    def __eq__(self, other: object) -> bool:
        return isinstance(other, (Lazily, list, tuple)) and len(other) == self._count and list(self) == list(other)

    __hash__ = None  # type: ignore[assignment]

    def __repr__(self) -> str:
        return repr(list(self))

    def __reduce__(self) -> Tuple[Any, ...]:
        return list, (list(self),)
