"""Wrong uses of the client. A type checker must refuse each line that ends with the comment `wrong`, and no other line:
`mypy --strict clients/python/wrong_uses.py`. test_hints.py compares. Nobody runs this file."""

import asyncio
from typing import Dict, List, Optional, Tuple

import judyd
from judyd import aio


def addresses_and_clients() -> None:
    """How clients are made."""
    judyd.Client("/run/judyd/socket", timeout=None)
    judyd.Client(b"/run/judyd/socket")
    judyd.Client(("localhost", 7000))
    judyd.Client(7000)  # wrong
    judyd.Client(("localhost", "7000"))  # wrong
    judyd.Client("socket", timeout="30")  # wrong
    judyd.Client("socket", retries=3)  # wrong
    judyd.Client("socket", reconnect=True, retry=judyd.IDEMPOTENT)
    judyd.Client("socket", reconnect=True, retry="idempotent")  # wrong
    judyd.Client("socket").auth("alice")  # wrong
    judyd.Client("socket").auth("alice", b"abc")  # wrong
    judyd.Client("socket").lines(["J1S ids 5"])  # wrong
    judyd.Pool("socket", "8", "alice", "abc")  # wrong
    judyd.Pool("socket", 8)  # wrong
    judyd.Client("socket").judy2("ids")  # wrong


def sets(client: judyd.Client) -> None:
    """Judy1."""
    ids = client.judy1("ids")
    free: Optional[int] = ids.take()
    free = ids.add_absent(1)
    popped: Optional[int] = ids.pop_first(1, 9)
    count: int = ids.remove_range(1, 9, 5)
    newest: List[int] = ids.ranks[-10:]
    shared: List[int] = [*ids.intersect("mine", 0, 9).indexes, *ids.intersection("mine", 0, 9)]
    going_on: Optional[int] = ids.intersect("mine").next
    least: int = ids.ranks[0]
    client.judy1(b"ids")  # wrong
    client.judy1("ids", "utf-8")  # wrong
    ids.set("5")  # wrong
    ids.add(b"5")  # wrong
    ids.update(["5"])  # wrong
    ids.set(5, 6)  # wrong
    ids.add_absent("5")  # wrong
    ids.pop_first(1, "9")  # wrong
    ids.remove_range(1)  # wrong
    certain: int = ids.pop_first()  # wrong
    ids.add(5, 2)  # wrong
    ids.insert(5)  # wrong
    is_new: str = ids.set(5)  # wrong
    index: int = ids.first_empty(1)  # wrong
    item: Tuple[int, int] = ids.ranks[0]  # wrong
    ids.ranks["0"]  # wrong
    ids.walk(0, "9")  # wrong
    ids.walk_back("9")  # wrong
    ids[5]  # wrong
    ids.intersect(ids)  # wrong
    ids.intersect("mine", "0")  # wrong
    ids.intersection(ids)  # wrong
    ids.intersection("mine", 0, "9")  # wrong
    ids.intersect()  # wrong
    further: int = ids.intersect("mine").next  # wrong
    print(shared, going_on, further)
    print(free, popped, count, certain, newest, least, is_new, index, item)


def word_maps(client: judyd.Client) -> None:
    """JudyL."""
    m = client.judyl("m")
    m[5] = 6
    m.update({5: 6})
    entries: Dict[int, int] = dict(m.items())
    value: Optional[int] = m.get(5)
    number: int = m.get(5, 0)
    joined: Dict[int, int] = m | {5: 6}
    m |= {5: 6}
    number = m.pop(5)
    number = m.setdefault(5, 7)
    is_equal: bool = m == {5: 6}
    popped: Optional[int] = m.pop(5, None)
    m.walk(0, "9")  # wrong
    m.pop("5")  # wrong
    m["5"] = 6  # wrong
    m[5] = "6"  # wrong
    m[5] = None  # wrong
    m.insert(b"5", 6)  # wrong
    m.get("5")  # wrong
    m.update({"5": 6})  # wrong
    sums: List[int] = m.add_many([(5, -1)])
    print(sums)
    m.add_many({"5": 6})  # wrong
    m.add("5")  # wrong
    m.add(5, "1")  # wrong
    none: None = m.add(5, n=-1)  # wrong
    kept: Optional[int] = m.keep(5, 6)
    before: Optional[int] = m.exchange(5, 6, 7)
    was_there: bool = m.delete_if(5, 6)
    taken: Optional[int] = m.take(5)
    claimed: Optional[int] = m.insert_absent(0, 5)
    least: Optional[Tuple[int, int]] = m.pop_first(0, 9)
    m.insert_absent(0)  # wrong
    m.insert_absent(0, "5")  # wrong
    m.pop_first("0")  # wrong
    index: Optional[int] = m.pop_first()  # wrong
    m.keep(5)  # wrong
    m.keep(5, None)  # wrong
    m.exchange(5, 6)  # wrong
    m.exchange("5", 6, 7)  # wrong
    m.delete_if(5)  # wrong
    m.take("5")  # wrong
    certain: int = m.take(5)  # wrong
    print(kept, before, was_there, taken, certain, claimed, least, index)
    other: int = m.get(5)  # wrong
    text: str = m[5]  # wrong
    first: Tuple[int, int] = m.first()  # wrong
    keys: List[str] = list(m)  # wrong
    print(entries, value, number, none, other, text, first, keys, joined, is_equal, popped)


def string_maps(client: judyd.Client) -> None:
    """JudySL: keys are str with an encoding, and bytes without."""
    texts, plain = client.judysl("s", encoding="utf-8"), client.judysl("s")
    texts["tree"] = 3
    plain[b"tree"] = 3
    first: Optional[Tuple[str, int]] = texts.first()
    key: bytes = next(iter(plain))
    texts[b"tree"] = 3  # wrong
    plain["tree"] = 3  # wrong
    texts.get(b"tree")  # wrong
    plain.get("tree")  # wrong
    plain.next(5)  # wrong
    least: Optional[Tuple[str, int]] = texts.pop_first("tree")
    texts.pop_first(b"tree")  # wrong
    plain.pop_first(b"t", b"u")  # wrong
    wrong_least: Optional[Tuple[str, int]] = plain.pop_first()  # wrong
    texts.add(b"tree")  # wrong
    texts.update({b"tree": 3})  # wrong
    list(plain.with_prefix("tr"))  # wrong
    wrong_first: Optional[Tuple[bytes, int]] = texts.first()  # wrong
    wrong_key: str = next(iter(plain))  # wrong
    plain.count()  # wrong
    plain.first_empty(5)  # wrong
    plain.ranks  # wrong
    client.judysl("s", encoding=8)  # wrong
    print(first, key, wrong_first, wrong_key, least, wrong_least)


def byte_maps(client: judyd.Client) -> None:
    """JudyHS has an order of the server's."""
    texts, plain = client.judyhs("h", encoding="utf-8"), client.judyhs("h")
    texts["a"], plain[b"a"] = 1, 2
    texts[b"a"] = 1  # wrong
    plain["a"] = 2  # wrong
    plain[5] = 2  # wrong
    entries: List[Tuple[str, int]] = [*texts.first(), *texts.next("a", 9), *texts.walk(), *texts.walk("a"), *texts.items()]
    size: int = len(plain)
    keys: List[str] = [*texts, *texts.keys(), texts.popitem()[0]]
    print(entries, size, keys)
    plain.first(b"a")  # wrong
    plain.next(5)  # wrong
    plain.next()  # wrong
    plain.walk("a")  # wrong
    plain.pop_first()  # wrong
    plain.walk_back()  # wrong
    reversed(plain)  # wrong
    others: List[Tuple[str, int]] = plain.first()  # wrong
    print(others)


def pipelines(client: judyd.Client) -> None:
    """The calls of a pipeline give a Later."""
    with client.pipeline() as pipe:
        late = pipe.judy1("ids").set(5)
        item = pipe.judysl("s", "utf-8").first()
        pipe.judy1("ids").set("5")  # wrong
        pipe.judysl("s").get("tree")  # wrong
        pipe.judyhs("h", "utf-8").insert(b"a")  # wrong
        pipe.judy1("ids").add(5)
        pipe.judyl("m")[5] = 6
        used: judyd.Later[judyd.Used] = pipe.used()
        arrays: judyd.Later[List[judyd.NamedArray]] = pipe.names(("J1", "ids"), 5)
        pipe.names("J1", 5)  # wrong
        pipe.arrays()  # wrong
        pipe.judy1("ids").add("5")  # wrong
        hits: int = pipe.judyl("m").add(5)  # wrong
        kept: judyd.Later[Optional[int]] = pipe.judyl("m").keep(5, 6)
        popped: judyd.Later[Optional[Tuple[int, int]]] = pipe.judyl("m").pop_first()
        claimed: judyd.Later[Optional[int]] = pipe.judy1("ids").add_absent()
        pipe.judy1("ids").pop()  # wrong
        both: judyd.Later[judyd.Shared] = pipe.judy1("ids").intersect("mine")
        list(pipe.judy1("ids").intersection("mine"))  # wrong
        some: judyd.Later[List[Tuple[bytes, int]]] = pipe.judyhs("h").first()
        list(pipe.judyhs("h").walk())  # wrong
        was_there: bool = pipe.judyl("m").delete_if(5, 6)  # wrong
        print(kept, popped, claimed, was_there, both, some)
        pipe.judyl("m")[5] = "6"  # wrong
        pipe.judysl("s")["tree"] = 6  # wrong
        is_new: bool = pipe.judy1("ids").set(5)  # wrong
    fine: bool = late.result()
    first: Optional[Tuple[str, int]] = item.result()
    number: str = late.result()  # wrong
    wrong_first: Optional[Tuple[bytes, int]] = item.result()  # wrong
    print(is_new, hits, fine, first, number, wrong_first, used, arrays)


async def tasks(client: aio.Client) -> None:
    """The calls of an asyncio client are awaited."""
    await client.auth("alice", "abc")
    fine: bool = await client.judy1("ids").set(5)
    task: "asyncio.Task[bool]" = asyncio.create_task(client.judy1("ids").set(5))
    found: "asyncio.Task[Optional[int]]" = asyncio.create_task(client.judyl("m").get(5))
    await client.judyl("m").update({5: 6})
    await client.judyl("m").update({"5": 6})  # wrong
    print(await client.judyl("m").add_many({5: -1}))
    await client.judyl("m").add_many({"5": 6})  # wrong
    await client.judy1("ids").update(["5"])  # wrong
    async with client.pipeline() as pipe:
        late: judyd.Later[bool] = pipe.judy1("ids").set(5)
    async with aio.Pool("socket", 8, "alice", "abc").client() as other:
        await other.used()
        pairs: List[Tuple[str, str]] = await other.arrays()
        counts: Dict[Tuple[str, str], int] = await other.array_counts()
        listed: List[judyd.NamedArray] = await other.names(pairs[0])
        later: List[judyd.NamedArray] = other.names()  # wrong
        await other.names(5)  # wrong
        print(counts, listed, later)
    aio.Pool("socket", 8)  # wrong
    async for key, value in client.judysl("s", "utf-8").walk():
        text: str = key
    is_new: bool = client.judy1("ids").set(5)  # wrong
    await client.judy1("ids").set("5")  # wrong
    await client.judysl("s").get("tree")  # wrong
    await client.judyhs("h", "utf-8").get(b"a")  # wrong
    number: int = await client.judyl("m").get(5)  # wrong
    number = await client.judyl("m").add(5)
    hits: int = client.judyl("m").add(5)  # wrong
    kept: Optional[int] = await client.judyl("m").keep(5, 6)
    taken: Optional[int] = client.judyl("m").take(5)  # wrong
    popped: Optional[int] = await client.judy1("ids").pop_first()
    claimed: Optional[int] = client.judy1("ids").add_absent()  # wrong
    both: judyd.Shared = await client.judy1("ids").intersect("mine")
    print(both, [it async for it in client.judy1("ids").intersection("mine")])
    for index in client.judy1("ids").intersection("mine"):  # wrong
        print(index)
    entries: List[Tuple[str, int]] = await client.judyhs("h", "utf-8").next("a", 5)
    print(entries, [key async for key, _ in client.judyhs("h").walk(b"a")])
    for entry in client.judyhs("h").walk():  # wrong
        print(entry)
    print(kept, taken, popped, claimed)
    for index in client.judy1("ids").walk():  # wrong
        print(index)
    async for key, value in client.judysl("s").walk(b"a"):  # wrong
        print(fine, is_new, number, hits, text, value, task, found, late)


def errors(client: judyd.Client) -> None:
    """What errors tell."""
    try:
        client.used()
    except judyd.ConnectionLost as e:
        may: bool = e.may_have_run
        wrong_may: str = e.may_have_run  # wrong
        print(may, wrong_may)
    except judyd.Full as e:
        e.may_have_run  # wrong
        reply: str = e.reply
        print(reply)
    used: int = client.used()  # wrong
    quota: int = client.used().quota
    client.used().limit  # wrong
    print(used, quota)
    pairs: List[Tuple[str, str]] = client.arrays()
    counts: Dict[Tuple[str, str], int] = client.array_counts()
    listed: List[judyd.NamedArray] = client.names(client.names(pairs[0], 9)[-1])
    entries: str = listed[0].entries  # wrong
    client.names("J1", "ids")  # wrong
    client.names(("J1", 5))  # wrong
    client.arrays()[0].entries  # wrong
    print(counts, entries)
