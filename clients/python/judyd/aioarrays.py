"""The arrays of an asyncio client."""

from functools import partial
from itertools import compress
from typing import Any, AsyncIterator, Callable, Coroutine, Generic, Iterable, List, Mapping, Optional, Tuple, TypeVar, Union, overload

from .calls import Judy1Calls, JudyHSCalls, JudyLCalls, JudySLCalls, MapCalls
from .connection import SameServer
from .errors import all_checked
from .fields import MAX, Shared, flags_of, is_word, name_field, numbers_of, stop_of, values_of, word_of
from .lines import Lines, joined
from .many import ABSENT, Ahead, add_step, get_key, insert_entry, pairs_of
from .strings import ByteWalk, Item, StringWalk
from .walks import Ask, Steps, WordWalk, index_of_item, indexes_in, intersected, items_in

T = TypeVar("T")
K = TypeVar("K")
V = TypeVar("V")

SoonYes = Coroutine[Any, Any, bool]
SoonNumber = Coroutine[Any, Any, int]
SoonFound = Coroutine[Any, Any, Optional[int]]


async def walked(steps: Steps[T], client: Any) -> AsyncIterator[T]:
    """The entries of a walk."""
    replies: List[bytes] = []
    same = SameServer(client._server)
    while True:
        try:
            step = steps.send(replies) if replies else next(steps)
        except StopIteration:
            return
        if isinstance(step, Ask):
            replies = await client._replies(step)
            same.check()
        else:
            replies = []
            for entry in step:
                yield entry


class Many:
    """Calls of an array for many things, with many lines in flight at once."""

    _asker: Any

    async def _many(
        self, things: Iterable[T], lines_of: Callable[[List[T]], Optional[Lines]], call: Callable[[Any, T], Any],
        is_quiet: bool = False, is_ahead: bool = True,
    ) -> AsyncIterator[Tuple[List[T], bytes]]:  # fmt: skip
        """These things in windows, each with the replies to its calls. A refusal is raised after the
        window that has it. A window is made ahead unless the caller acts between two windows. `lines_of`
        makes the lines of a window at once. If it makes none, `call` makes the call of each thing."""
        same = SameServer(self._asker._server)
        for window, lines in Ahead(things, lines_of, is_ahead):
            if lines is None:
                replies = await self._piped(window, call, is_quiet)
            else:
                replies = all_checked(await self._asker._exchange(lines, is_quiet))
            same.check()
            yield window, replies

    async def _piped(self, window: List[T], call: Callable[[Any, T], Any], is_quiet: bool) -> bytes:
        """The replies to the calls of these things. If one of them raises an exception, nothing is sent."""
        async with self._asker.pipeline(None, is_quiet=is_quiet) as pipe:
            calls = self._in(pipe)
            late = [call(calls, thing) for thing in window]
        return joined([ABSENT if it is None else it._reply for it in late])

    def _in(self, pipe: Any) -> Any:
        """The calls of this array in a pipeline."""
        raise NotImplementedError


class Judy1(Many, Judy1Calls[SoonYes, SoonNumber, SoonFound, Coroutine[Any, Any, Shared]]):
    """A set of words."""

    async def take(self, first: int = 0) -> Optional[int]:
        """Inserts the least absent index from `first` on, and returns it; None if there is none. It is
        `add_absent`, by its older name: if several clients take, each gets an index of its own."""
        return await self.add_absent(first)

    async def update(self, indexes: Iterable[int]) -> None:
        """Inserts all of these indexes, with many lines in flight at once. A refusal is raised
        after the window that has it."""
        async for _ in self._many(indexes, partial(self._lines, b"S"), lambda calls, index: calls.set(index), is_quiet=True):
            pass

    async def difference_update(self, indexes: Iterable[int]) -> None:
        """Removes all of these indexes, with many lines in flight at once."""
        words = filter(is_word, indexes)
        async for _ in self._many(words, partial(self._lines, b"U"), lambda calls, index: calls.unset(index), is_quiet=True):
            pass

    async def among(self, indexes: Iterable[int]) -> AsyncIterator[int]:
        """Those of these indexes that are in the set, in the order given, with many lines in flight
        at once."""
        words = filter(is_word, indexes)
        async for window, replies in self._many(words, partial(self._lines, b"T"), lambda calls, index: calls.test(index), is_ahead=False):
            for index in compress(window, flags_of(replies)):
                yield index

    def walk(self, start: int = 0, stop: Optional[int] = None) -> AsyncIterator[int]:
        """The indexes in order from `start` on, up to `stop`, which is left out, read many at a
        time."""
        return walked(WordWalk(self, indexes_in, int, False, stop_of(stop, False)).steps(word_of(start)), self._asker)

    def walk_back(self, start: int = MAX, stop: Optional[int] = None) -> AsyncIterator[int]:
        """The indexes from `start` down to `stop`, which is left out, read many at a time."""
        return walked(WordWalk(self, indexes_in, int, True, stop_of(stop, True)).steps(word_of(start)), self._asker)

    def intersection(self, other: str, start: int = 0, stop: Optional[int] = None) -> AsyncIterator[int]:
        """The indexes that this set shares with the tenant's set of another name, in order from `start` on,
        up to `stop`, which is left out, read many at a time."""
        return walked(intersected(self._line(b"I", name_field(other)), start, stop), self._asker)

    def _in(self, pipe: Any) -> Any:
        return pipe.judy1(self.name)


class Map(Many, MapCalls[K, SoonYes, SoonNumber, SoonFound], Generic[K]):
    """What the three kinds of map share."""

    @overload
    def get(self, key: K) -> SoonFound: ...

    @overload
    def get(self, key: K, default: Union[int, V]) -> Coroutine[Any, Any, Union[int, V]]: ...

    async def get(self, key: Any, default: Any = None) -> Any:
        """Get: the value of a key, or the default. A key that is out of range is absent."""
        try:
            self._key(key)
        except ValueError:
            return default
        value = await super().get(key)
        return default if value is None else value

    async def update(self, entries: Union[Mapping[K, int], Iterable[Tuple[K, int]]]) -> None:
        """Stores all of these entries, with many lines in flight at once. A refusal is raised after
        the window that has it: all other entries of that window and of those before are stored."""
        async for _ in self._many(pairs_of(entries), self._insert_lines, insert_entry, is_quiet=True):
            pass

    async def get_many(self, keys: Iterable[K]) -> AsyncIterator[Tuple[K, Optional[int]]]:
        """Each of these keys with its value, or with None, with many lines in flight at once. A key
        that is out of range is absent."""
        async for window, replies in self._many(keys, partial(self._lines, b"G"), get_key, is_ahead=False):
            for item in zip(window, values_of(replies)):
                yield item

    async def add_many(self, steps: Union[Mapping[K, int], Iterable[Tuple[K, int]]]) -> List[int]:
        """Adds to the values of many keys, pairs of a key and what is added to it, with many lines in
        flight at once. Returns the new values, in the order given. A refusal is raised after the window
        that has it: all other additions of that window and of those before are made."""
        values: List[int] = []
        async for _, replies in self._many(pairs_of(steps), self._add_lines, add_step):
            values += numbers_of(replies)
        return values

    async def delete_many(self, keys: Iterable[K]) -> int:
        """Removes all of these keys, with many lines in flight at once, and returns how many were
        present."""
        count = 0
        async for _, replies in self._many(keys, partial(self._lines, b"D"), lambda calls, key: calls.delete(key)):
            count += sum(flags_of(replies))
        return count


class JudyL(Map[int], JudyLCalls[SoonYes, SoonNumber, SoonFound, Coroutine[Any, Any, Optional[Tuple[int, int]]]]):
    """A map from words to words."""

    def walk(self, start: int = 0, stop: Optional[int] = None) -> AsyncIterator[Tuple[int, int]]:
        """The entries in order from `start` on, up to `stop`, which is left out, as pairs of index and
        value, read many at a time."""
        return walked(WordWalk(self, items_in, index_of_item, False, stop_of(stop, False)).steps(word_of(start)), self._asker)

    def walk_back(self, start: int = MAX, stop: Optional[int] = None) -> AsyncIterator[Tuple[int, int]]:
        """The entries from `start` down to `stop`, which is left out, as pairs of index and value, read
        many at a time."""
        return walked(WordWalk(self, items_in, index_of_item, True, stop_of(stop, True)).steps(word_of(start)), self._asker)

    def _in(self, pipe: Any) -> Any:
        return pipe.judyl(self.name)


class KeyMap(Map[K], Generic[K]):
    """What the maps whose keys are bytes or text share."""

    _shown: Callable[[bytes], K]

    async def _walk(self, steps: Steps[Item]) -> AsyncIterator[Tuple[K, int]]:
        async for key, value in walked(steps, self._asker):
            yield self._shown(key), value


class JudySL(KeyMap[K], JudySLCalls[K, SoonYes, SoonNumber, SoonFound, Coroutine[Any, Any, Optional[Tuple[K, int]]]], Generic[K]):
    """A map from strings to words, in the order of their bytes."""

    def walk(self, start: Optional[K] = None, stop: Optional[K] = None) -> AsyncIterator[Tuple[K, int]]:
        """The entries in order from `start` on, up to `stop`, which is left out, as pairs of key and
        value, read many at a time."""
        return self._walk(StringWalk(self, False, self._bound(stop)).steps(self._bound(start)))

    def walk_back(self, start: Optional[K] = None, stop: Optional[K] = None) -> AsyncIterator[Tuple[K, int]]:
        """The entries from `start` down to `stop`, which is left out, as pairs of key and value."""
        return self._walk(StringWalk(self, True, self._bound(stop)).steps(self._bound(start)))

    def with_prefix(self, prefix: K) -> AsyncIterator[Tuple[K, int]]:
        """The entries whose keys begin with these bytes or this text, in order."""
        plain = self._plain(prefix)
        return self._walk(StringWalk(self, False).steps(plain, plain))

    def _in(self, pipe: Any) -> Any:
        return pipe.judysl(self.name, self.encoding)


class JudyHS(KeyMap[K], JudyHSCalls[K, SoonYes, SoonNumber, SoonFound, Coroutine[Any, Any, List[Tuple[K, int]]]], Generic[K]):
    """A map from byte keys to words, in an order of the server's."""

    def walk(self, behind: Optional[K] = None) -> AsyncIterator[Tuple[K, int]]:
        """The entries in the server's order, those behind a key if one is given, as pairs of key and value,
        read many at a time. The key may be absent."""
        return self._walk(ByteWalk(self).steps(self._bound(behind)))

    def _in(self, pipe: Any) -> Any:
        return pipe.judyhs(self.name, self.encoding)
