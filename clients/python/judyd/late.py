"""The results of calls that are made later, and arrays whose calls give them."""

from typing import Any, Callable, Generic, Iterable, List, Mapping, Optional, Tuple, TypeVar, Union, overload

from .bound import Bound
from .calls import Judy1Calls, JudyHSCalls, JudyLCalls, JudySLCalls, MapCalls, given
from .errors import Closed, JudyError, checked, is_refusal
from .fields import MOST, Shared, Used, used_of
from .names import Behind, NamedArray, names_line, names_of

T = TypeVar("T")
K = TypeVar("K")


class Later(Bound, Generic[T]):
    """The result of a call of a pipeline. Once the pipeline has sent the call, `result()` returns
    it, or raises its refusal."""

    def __init__(self, read: Callable[[bytes], T]) -> None:
        self._read = read
        self._reply: Optional[bytes] = None
        self._lost: Optional[Closed] = None

    def __repr__(self) -> str:
        state = "lost" if self._lost is not None else "not sent yet" if self._reply is None else "answered"
        return "<Later: %s>" % state

    def result(self) -> T:
        """The result of the call."""
        if self._lost is not None:
            raise self._lost
        if self._reply is None:
            raise JudyError("this call of the pipeline has no answer yet: it is sent by flush(), and at the end of the block")
        return self._read(checked(self._reply))


LateYes = Later[bool]
LateNumber = Later[int]
LateFound = Later[Optional[int]]


class LateJudy1(Judy1Calls[LateYes, LateNumber, LateFound, Later[Shared]]):
    """The set of words of a pipeline. Instead of `pop` it has `pop_first`, whose result is None if the set is
    empty, and instead of `take` it has `add_absent`."""

    def add(self, index: int) -> None:
        """Inserts an index."""
        self.set(index)

    def discard(self, index: int) -> None:
        """Removes an index, if it is present. One that is out of range never is."""
        try:
            self.unset(index)
        except ValueError:
            pass

    def update(self, indexes: Iterable[int]) -> None:
        """Inserts all of these indexes."""
        for index in indexes:
            self.set(index)

    def difference_update(self, indexes: Iterable[int]) -> None:
        """Removes all of these indexes."""
        for index in indexes:
            self.discard(index)

    def clear(self) -> None:
        """Empties the array (FreeArray)."""
        self.free_array()


class LateMap(MapCalls[K, LateYes, LateNumber, LateFound], Generic[K]):
    """What the three kinds of map of a pipeline share."""

    def __setitem__(self, key: K, value: int) -> None:
        self.insert(key, given(value))

    def update(self, entries: Union[Mapping[K, int], Iterable[Tuple[K, int]]]) -> None:
        """Stores all of these entries."""
        items: Iterable[Tuple[Any, int]] = entries.items() if isinstance(entries, Mapping) else entries
        for key, value in items:
            self[key] = value

    def clear(self) -> None:
        """Empties the array (FreeArray)."""
        self.free_array()


class LateJudyL(LateMap[int], JudyLCalls[LateYes, LateNumber, LateFound, Later[Optional[Tuple[int, int]]]]):
    """The map from words to words of a pipeline."""


class LateJudySL(LateMap[K], JudySLCalls[K, LateYes, LateNumber, LateFound, Later[Optional[Tuple[K, int]]]], Generic[K]):
    """The map from strings to words of a pipeline."""


class LateJudyHS(LateMap[K], JudyHSCalls[K, LateYes, LateNumber, LateFound, Later[List[Tuple[K, int]]]], Generic[K]):
    """The map from byte keys to words of a pipeline."""


class LateArrays(Bound):
    """What pipelines share: their arrays, and the first refusal of their calls."""

    _is_late = True

    def __init__(self) -> None:
        self._refusal: Optional[bytes] = None

    def used(self) -> Later[Used]:
        """The tenant's numbers of entries and pieces, and its quota of both, as a `Used`."""
        return self._ask(b"USED", used_of)

    def names(self, behind: Behind = None, most: int = MOST) -> Later[List[NamedArray]]:
        """The first of the tenant's arrays that have entries, or those behind an array, which may be absent: at
        most `most` of them and as many as fit into a reply, each as a `NamedArray`."""
        return self._ask(names_line(behind, most), names_of)

    def judy1(self, name: str) -> LateJudy1:
        """The calls of the set of words with this name."""
        return LateJudy1(self, name)

    def judyl(self, name: str) -> LateJudyL:
        """The calls of the map from words to words with this name."""
        return LateJudyL(self, name)

    @overload
    def judysl(self, name: str, encoding: None = None) -> "LateJudySL[bytes]": ...

    @overload
    def judysl(self, name: str, encoding: str) -> "LateJudySL[str]": ...

    def judysl(self, name: str, encoding: Optional[str] = None) -> "LateJudySL[Any]":
        """The calls of the map from strings to words with this name."""
        return LateJudySL(self, name, encoding)

    @overload
    def judyhs(self, name: str, encoding: None = None) -> "LateJudyHS[bytes]": ...

    @overload
    def judyhs(self, name: str, encoding: str) -> "LateJudyHS[str]": ...

    def judyhs(self, name: str, encoding: Optional[str] = None) -> "LateJudyHS[Any]":
        """The calls of the map from byte keys to words with this name."""
        return LateJudyHS(self, name, encoding)

    def _take(self, late: List[Later[Any]], replies: List[bytes]) -> None:
        for later, reply in zip(late, replies):
            later._reply = reply
            if self._refusal is None and is_refusal(reply):
                self._refusal = reply

    def _ask(self, line: bytes, read: Callable[[bytes], T], is_quiet: bool = False) -> Later[T]:
        raise NotImplementedError
