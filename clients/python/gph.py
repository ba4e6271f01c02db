#!/usr/bin/env python3
"""Exact Hamming search from Python: a client of the program `gph`. One file, Python 3.9 on, the standard library alone.

    from gph import Index

    with Index(bits=64) as index:
        index.add(1, 0x8F3C00FF1E7E3C18)
        index.add(2, "8f3c00ff1e7e3c19")
        for distance, key in index.range(0x8F3C00FF1E7E3C18, 10):
            print(distance, key)

An `Index` is one session of the program, which it starts on a pipe. The rows are held in memory and end with it. It is for one
thread at a time. With `port=N` it is a session of a program that listens on this machine (`gph listen --port N ..`): its rows are
those of all sessions there, and stay when it ends.

Keys are whole numbers from 0 to 2**64 - 1. Codes have as many bits as the index says, and are given in any of three forms: a whole
number from 0 to 2**bits - 1, `bits / 8` bytes with the top byte first, or `bits / 4` hexadecimal digits. Distances are in bits.

An argument that isn't so raises `ValueError`, and nothing is sent. What the program refuses raises an exception named for its
cause, all of them `Refused`: nothing changed, and the index can be used as before. Where the program itself has ended, `Ended` is
raised.

As a command it reads lines `KEY HEX` and prints all pairs within a distance: `python3 gph.py --help`.
"""

from __future__ import annotations

import argparse
import operator
import os
import select
import shutil
import socket
import subprocess
import sys
import time
from collections import deque
from contextlib import contextmanager
from typing import Any, Callable, Deque, Dict, Iterable, Iterator, List, NamedTuple, Optional, Sequence, Tuple, Type, Union

__all__ = [
    "Absent", "Answer", "BadRequest", "Cost", "Ended", "Found", "Full", "GphError", "Hit", "Index", "OtherBuild", "OutOfMemory", "Plan", "Query",
    "Refused", "RowsLeft", "SomeRefused", "Taken",
]

Code = Union[int, bytes, str]
Progress = Callable[[int], object]
# lines, and the number of the replies that come to them
_Request = Tuple[bytes, int]

# the most hits of one `next`, and the most neighbours of one `near`
TURN, NEAREST = 65_536, 1_048_576
# the most entries that there may be
ENTRIES = 1_048_576
# bytes that a pipe gives or takes at once
BLOCK = 65_536
# requests under way in a bulk call: rows in each group that is sent at once, groups, and queries
GROUP, GROUPS, QUERIES = 256, 64, 64


class Hit(NamedTuple):
    """A row that was found: its distance in bits from the code that was asked for, and its key."""

    distance: int
    key: int


class Cost(NamedTuple):
    """The postings that a query has read so far, over all shards, and the most that it may read."""

    reads: int
    bound: int


class Plan(NamedTuple):
    """How a query searches one shard: the postings to read, and the radius at each part, -1 for one that isn't searched."""

    cost: int
    thresholds: Tuple[int, ...]


class Answer(NamedTuple):
    """A whole answer: the hits by distance and then by key, and what they cost."""

    hits: List[Hit]
    cost: Cost


class Found(NamedTuple):
    """What a search found: the postings that the samples would read, of the rows looked at, in the shard's layout and in the one found;
    how many exchanges of two positions lie between them; the number of entries so far; and the text of the layout found."""

    before: int
    after: int
    swaps: int
    entries: int
    layout: str


class GphError(Exception):
    """Every error of this module, but for `ValueError` of an argument."""


class Ended(GphError):
    """The program has ended, and the rows with it. `status` is its exit status, or less a signal's number where that ended it; None
    where it was a connection that ended."""

    CAUSES = {
        0: "at the end of its input",
        2: "it was started with words that it doesn't know",
        3: "a read failed",
        4: "a write failed",
        5: "out of memory at its start",
        6: "the input is over its limit",
        126: "it was not built",
        127: "the Rattle kit, which builds it, is missing",
        130: "its build was interrupted",
    }

    def __init__(self, status: Optional[int]) -> None:
        super().__init__(status)
        self.status = status

    def __str__(self) -> str:
        if self.status is None:
            return "the connection has ended"
        cause = f"by signal {-self.status}" if self.status < 0 else self.CAUSES.get(self.status, "see its line on standard error")
        return f"the program ended with status {self.status}: {cause}"


class Refused(GphError):
    """The program refused a request, which changed nothing. The index can be used as before."""


class Taken(Refused):
    """`key` has a row already; `at` is the number of entries so far."""

    def __init__(self, key: int, at: int) -> None:
        super().__init__(key, at)
        self.key, self.at = key, at

    def __str__(self) -> str:
        return f"the key {self.key} has a row already"


class Absent(Refused):
    """`key` has no row; `at` is the number of entries so far."""

    def __init__(self, key: int, at: int) -> None:
        super().__init__(key, at)
        self.key, self.at = key, at

    def __str__(self) -> str:
        return f"the key {self.key} has no row"


class Full(Refused):
    """The index has taken `at` entries, each of which added a row or deleted one, and takes no more."""

    def __init__(self, at: int) -> None:
        super().__init__(at)
        self.at = at

    def __str__(self) -> str:
        return f"the index has {self.at} entries, and takes no more"


class OutOfMemory(Refused):
    """The program found no memory for this request."""

    def __str__(self) -> str:
        return "the program found no memory for this request"


class BadRequest(Refused):
    """The program doesn't take the request: `number` says why, and for 5 `word` is the place of the word at fault, else 0."""

    CAUSES = {
        1: "the line is too long",
        2: "the line has a byte that isn't printable",
        3: "the program has no such request",
        4: "the request has another number of words",
        5: "a word isn't of its form",
        6: "there is no such shard",
        7: "the query's name is in use",
        8: "there is no such query: it was closed",
        9: "sixteen queries are open: close one",
        10: "a build goes on already, or none does",
        11: "the build has rows left to place",
    }

    def __init__(self, number: int, word: int = 0) -> None:
        super().__init__(number, word)
        self.number, self.word = number, word

    def __str__(self) -> str:
        place = f" (word {self.word})" if self.word else ""
        return f"bad {self.number}{place}: {self.CAUSES.get(self.number, 'docs/PROTOCOL.md says why')}"


class OtherBuild(BadRequest):
    """There is no build to go on with, or one goes on already and a second isn't begun."""


class RowsLeft(BadRequest):
    """The build has rows left to place, and isn't put in place before that."""


class SomeRefused(GphError):
    """Of a bulk call some were refused: `refusals` has their exceptions, in order, and `done` is the number of the others."""

    def __init__(self, done: int, refusals: List[Refused]) -> None:
        super().__init__(done, refusals)
        self.done, self.refusals = done, refusals

    def __str__(self) -> str:
        return f"{self.done} were added and {len(self.refusals)} refused, first: {self.refusals[0]}"


class _Reply(NamedTuple):
    """The reply to one request: the hits before its last line, and the words of that line."""

    hits: List[Hit]
    words: List[bytes]


def _refusal(words: List[bytes]) -> Optional[Refused]:
    """The exception that a reply stands for; None where the request was met."""
    kind = words[0]
    if kind == b"taken":
        return Taken(int(words[1]), int(words[3]))
    if kind == b"absent":
        return Absent(int(words[1]), int(words[3]))
    if kind == b"full":
        return Full(int(words[2]))
    if kind == b"nomem":
        return OutOfMemory()
    if kind == b"bad":
        numbers = [int(word) for word in words[1:]]
        return {10: OtherBuild, 11: RowsLeft}.get(numbers[0], BadRequest)(*numbers)
    return None


def _met(reply: _Reply) -> List[bytes]:
    """The words of a reply; raises the refusal that they stand for."""
    refusal = _refusal(reply.words)
    if refusal:
        raise refusal
    return reply.words


def _cost(reply: _Reply) -> Cost:
    words = _met(reply)
    return Cost(int(words[3]), int(words[5]))


class _Asked:
    """Requests that were sent together: how many replies are still to come, and those that came."""

    def __init__(self, number: int) -> None:
        self.left = number
        self.replies: List[_Reply] = []


class _Process:
    """The program, started on two pipes, by whose descriptors it is asked and answers."""

    def __init__(self, words: Sequence[str]) -> None:
        self.process = subprocess.Popen(words, stdin=subprocess.PIPE, stdout=subprocess.PIPE, bufsize=0)
        assert self.process.stdin and self.process.stdout
        self._pipes = self.process.stdin, self.process.stdout
        self.to, self.back = (pipe.fileno() for pipe in self._pipes)

    def stop(self) -> None:
        self.process.terminate()

    def close(self) -> None:
        """Closes the pipes, and waits for the program to end."""
        for pipe in self._pipes:
            pipe.close()
        self.process.wait()

    def status(self) -> Optional[int]:
        return self.process.wait()


class _Connection:
    """A connection to a program that listens, under two descriptors, as if it were two pipes."""

    def __init__(self, port: int) -> None:
        self._socket = socket.create_connection(("127.0.0.1", port))
        # a few lines are sent at a time, each time all that there is to send
        self._socket.setsockopt(socket.IPPROTO_TCP, socket.TCP_NODELAY, 1)
        self._other = self._socket.dup()
        self.to, self.back = self._socket.fileno(), self._other.fileno()

    def stop(self) -> None:
        """A connection is at its end when it is closed."""

    def close(self) -> None:
        self._socket.close()
        self._other.close()

    def status(self) -> Optional[int]:
        return None


class _Channel:
    """The program on two pipes, or on a connection. Requests are answered in the order in which they are sent. Neither pipe is
    waited for alone, since the program reads on only once its replies are taken in."""

    def __init__(self, program: Union[_Process, _Connection]) -> None:
        self._program = program
        self._to, self._from = program.to, program.back
        os.set_blocking(self._to, False)
        self._poll = select.poll()
        self._poll.register(self._from, select.POLLIN)
        self._is_open = True
        self._unsent = bytearray()
        self._rest = b""
        self._hits: List[Hit] = []
        self._waiting: Deque[_Asked] = deque()

    def ask(self, lines: bytes, number: int) -> _Asked:
        """Sends lines to which so many replies come, as far as the pipe takes them now. Raises `Ended`."""
        if not self._is_open:
            raise Ended(self._program.status())
        asked = _Asked(number)
        with self._whole():
            self._waiting.append(asked)
            self._unsent += lines
        self._turn(0)
        return asked

    def settle(self, asked: _Asked) -> List[_Reply]:
        """Waits for the replies to what was asked, and takes in all before them. Raises `Ended`."""
        while asked.left:
            if not self._is_open:
                raise Ended(self._program.status())
            self._turn(None)
        return asked.replies

    def close(self) -> None:
        """Takes in the replies that are still to come, and ends the program's input. Raises nothing of the program's."""
        try:
            if self._waiting:
                self.settle(self._waiting[-1])
        except Ended:
            pass
        self._finish()

    def stop(self) -> None:
        """Ends the program at once; what it was asked for and hasn't answered is dropped."""
        self._program.stop()
        self._finish()

    def _finish(self) -> None:
        """Closes both ways, and waits for the program to end where it was started for this."""
        self._is_open = False
        self._program.close()

    def _turn(self, milliseconds: Optional[int]) -> None:
        """Writes and reads what the pipes take and have, after waiting for either for so long; None is without end."""
        if self._unsent:
            self._poll.register(self._to, select.POLLOUT)
        try:
            ready = {descriptor for descriptor, _ in self._poll.poll(milliseconds)}
        finally:
            if self._unsent:
                self._poll.unregister(self._to)
        with self._whole():
            if self._to in ready:
                self._write()
            if self._from in ready:
                self._read()

    @contextmanager
    def _whole(self) -> Iterator[None]:
        """Ends the program where what is done inside is interrupted, since nobody could tell which reply is whose any more."""
        try:
            yield
        except BaseException:
            self.stop()
            raise

    def _write(self) -> None:
        try:
            sent = os.write(self._to, self._unsent[:BLOCK])
        except (BrokenPipeError, ConnectionResetError):
            # the program has ended: what it wrote before is still to be read
            sent = len(self._unsent)
        del self._unsent[:sent]

    def _read(self) -> None:
        try:
            block = os.read(self._from, BLOCK)
        except ConnectionResetError:
            block = b""
        if not block:
            self._finish()
            return
        lines = (self._rest + block).split(b"\n")
        self._rest = lines.pop()
        for line in lines:
            self._take(line)

    def _take(self, line: bytes) -> None:
        """Takes in one line: a hit, or the last line of the reply to the first request that waits for one."""
        words = line.split()
        if words[0] == b"hit":
            self._hits.append(Hit(int(words[2]), int(words[3])))
            return
        asked = self._waiting[0]
        asked.replies.append(_Reply(self._hits, words))
        self._hits = []
        asked.left -= 1
        if not asked.left:
            self._waiting.popleft()


class Query:
    """An open query: an iterator over its hits, by distance and then by key, which fetches them as they are consumed.

    Its answer is that on the rows as they were when it was opened, whatever is added and deleted meanwhile. It is closed by
    `close`, at the end of a `with`, or when nobody refers to it any more. `Index.open_range` and `Index.open_near` make it.
    """

    def __init__(self, channel: _Channel, tag: bytes, each: int, dropped: List[bytes]) -> None:
        self._channel, self._tag, self._each, self._dropped = channel, tag, each, dropped
        self._fetched: Deque[Hit] = deque()
        self._has_more = True
        self._is_open = True

    def __iter__(self) -> Query:
        return self

    def __next__(self) -> Hit:
        """The next hit. Raises `Ended`."""
        if not self._fetched and self._has_more and self._is_open:
            self._fetch()
        if not self._fetched:
            raise StopIteration
        return self._fetched.popleft()

    def __enter__(self) -> Query:
        return self

    def __exit__(self, *_: object) -> None:
        self.close()

    def __del__(self) -> None:
        # maybe in the middle of another call: the name is freed before the next query is opened
        if self._is_open:
            self._dropped.append(self._tag)

    def cost(self) -> Cost:
        """The postings read so far and the most that may be. For a near query the bound is for the distance of the last hit that
        was fetched. Raises `BadRequest(8)` where the query was closed, and `Ended`."""
        return _cost(self._ask(b"cost %s\n" % self._tag))

    def plan(self, shard: int) -> Plan:
        """How the query searches the shard of this number, from 0. Raises `BadRequest(6)` where there is no such shard,
        `BadRequest(8)` where the query was closed, and `Ended`."""
        words = _met(self._ask(b"plan %s %d\n" % (self._tag, _within(shard, 0, 99, "shard"))))
        return Plan(int(words[4]), tuple(map(int, words[5:])))

    def close(self) -> None:
        """Ends the query and frees its place, of which there are sixteen. A further call does nothing, and none raises."""
        if not self._is_open:
            return
        self._is_open = False
        self._fetched.clear()
        try:
            self._channel.ask(b"cancel %s\n" % self._tag, 1)
        except Ended:
            pass

    def _ask(self, line: bytes) -> _Reply:
        return self._channel.settle(self._channel.ask(line, 1))[0]

    def _fetch(self) -> None:
        reply = self._ask(b"next %s %d\n" % (self._tag, self._each))
        self._has_more = _met(reply)[0] == b"more"
        self._fetched.extend(reply.hits)


def _whole(value: Any) -> int:
    """A whole number, also of another type than int that stands for one; -1 for what isn't one."""
    try:
        return operator.index(value)
    except TypeError:
        return -1


def _within(value: Any, least: int, most: int, name: str) -> int:
    """The value as int; raises `ValueError` where it isn't a whole number from `least` to `most`."""
    number = _whole(value)
    if not least <= number <= most:
        raise ValueError(f"{name} is a whole number from {least} to {most}, not {value!r}")
    return number


def _key(key: int) -> int:
    return _within(key, 0, 2**64 - 1, "key")


def _is_hex(text: str) -> bool:
    return all(digit in "0123456789abcdefABCDEF" for digit in text)


def _layout(layout: Union[str, Iterable[Iterable[int]]]) -> bytes:
    """The text of a layout; raises `ValueError` where it can't be one."""
    if not isinstance(layout, str):
        layout = "/".join(",".join(str(_within(position, 0, 999, "a position")) for position in part) for part in layout)
    # another text could be more words than one, or lines
    if not layout or not set(layout) <= set("0123456789,/"):
        raise ValueError(f"{layout!r} is no layout: positions with ',' between them, and parts with '/'")
    return layout.encode("ascii")


def _launcher() -> str:
    """The path of the program: the launcher beside this file or at the top of its repository, or else `gph` on the PATH."""
    here = os.path.dirname(os.path.realpath(__file__))
    for path in (os.path.join(here, "gph"), os.path.join(here, "..", "..", "gph")):
        if os.path.isfile(path) and os.access(path, os.X_OK):
            return os.path.normpath(path)
    found = shutil.which("gph")
    if not found:
        raise FileNotFoundError("the program gph is neither beside gph.py nor on the PATH: give its path as program")
    return found


class Index:
    """One session of the program: rows of a key and a code, and queries over them. A context manager; `close` ends it.

    An interrupt from the keyboard leaves it usable, or ended with `Ended`, and never with an answer that is another's.
    """

    def __init__(
        self, bits: int = 64, parts: Optional[int] = None, shards: int = 4, program: Optional[str] = None, entries: int = 1_048_576,
        port: Optional[int] = None,
    ) -> None:
        """Starts the program, and waits until it answers: where the launcher has to build it first that takes minutes. Or connects
        to one that listens on this machine, and waits until it is served there.

        bits     of each code: a multiple of 8 from 8 to 256
        parts    that a code is cut into: 1 to 64, none of them over 12 bits; bits / 8 where left out
        shards   that the rows are kept in, by the remainder of the key: 1 to 16
        program  the path of the program or of its launcher; where left out, that beside this file, or else `gph` on the PATH
        entries  the most adds and deletes together: 1 to 1,048,576
        port     where a program listens whose codes have these bits: 1 to 65,535; the other words are then those that it was
                 started with, and mean nothing here

        Raises `FileNotFoundError` where there is no program, `ConnectionRefusedError` where none listens, and `Ended` where it doesn't
        start or serves no further session.
        """
        self.bits = _within(bits, 8, 256, "bits")
        if bits % 8:
            raise ValueError(f"bits is a multiple of 8, not {bits}")
        self.parts = _within(bits // 8 if parts is None else parts, -(-bits // 12), min(bits, 64), "parts")
        self.shards = _within(shards, 1, 16, "shards")
        _within(entries, 1, ENTRIES, "entries")
        if port is None:
            words = [program or _launcher(), "run", f"--bits={bits}", f"--parts={self.parts}", f"--shards={shards}"]
            self._channel = _Channel(_Process([*words, f"--entries={entries}"]))
        else:
            self._channel = _Channel(_Connection(_within(port, 1, 65_535, "port")))
        # rows that there may be, others' among them, queries opened so far, and the names of those that nobody refers to any more
        self._adds = 0 if port is None else ENTRIES
        self._opened = 0
        self._dropped: List[bytes] = []
        try:
            self.layout(0)
        except BaseException:
            self._channel.stop()
            raise

    def __enter__(self) -> Index:
        return self

    def __exit__(self, kind: Optional[Type[BaseException]], *_: object) -> None:
        if kind is None:
            self.close()
        else:
            self._channel.stop()

    def close(self) -> None:
        """Ends the program, or the connection, once what was asked for is answered. A further `close` does nothing; others raise
        `Ended`."""
        self._channel.close()

    def add(self, key: int, code: Code) -> int:
        """Adds a row; the number of its entry, from 1. Raises `Taken`, `Full`, `OutOfMemory` and `Ended`."""
        return self._position(self._add_line(key, code))

    def delete(self, key: int) -> int:
        """Takes a row out; the number of that entry. Raises `Absent`, `Full`, `OutOfMemory` and `Ended`."""
        return self._position(b"del %d\n" % _key(key))

    def get(self, key: int) -> int:
        """The code of a key's row, as a whole number. Raises `Absent` and `Ended`."""
        return int(self._met(b"get %d\n" % _key(key))[2], 16)

    def layout(self, shard: int) -> str:
        """The text of a shard's layout: the positions of a code from 0, `,` between those of a part, `/` between parts. Shards are
        numbered from 0. Raises `BadRequest(6)` where there is no such shard, and `Ended`."""
        return self._met(b"layout %d\n" % _within(shard, 0, 99, "shard"))[2].decode("ascii")

    def repart(self, shard: int, layout: Union[str, Iterable[Iterable[int]]]) -> int:
        """Begins to build a shard's tables for another layout; the number of rows to be placed. Until `swap` the shard has its old one.

        The layout is the text that `layout` gives, or the positions of each part, from 0 to `bits - 1`: 1 to 64 parts of 1 to 12
        positions, and every position in one of them, once. It changes no answer, but the postings that a query reads.

        Raises `ValueError` where a number isn't from 0 to 999, or the text is none of digits, `,` and `/`; `BadRequest(5, 3)` where it is
        no layout of these bits, and `BadRequest(6)` where there is no such shard; `OtherBuild` where a build goes on already;
        `OutOfMemory` and `Ended`.
        """
        return int(self._met(b"repart %d %s\n" % (_within(shard, 0, 99, "shard"), _layout(layout)))[3])

    def build(self, rows: int = TURN) -> int:
        """Places the build's next rows, 1 to 65,536, or all that are left; how many are left then. Raises `OtherBuild` where no build goes
        on, and `Ended`."""
        return int(self._met(b"build %d\n" % _within(rows, 1, TURN, "rows"))[3])

    def swap(self) -> int:
        """Puts the build in the place of its shard's layout, with all that was added and deleted meanwhile; the number of entries so far.
        Queries that are open keep the layout that they were opened on.

        Raises `OtherBuild` where no build goes on, `RowsLeft` where rows are left to place, `OutOfMemory`, after which the build stays, and
        `Ended`.
        """
        return self._position(b"swap\n")

    def search(self, shard: int, rounds: int = 8) -> Found:
        """Looks for a layout in which this index's queries read fewer postings of a shard; `repart` takes what it finds.

        It goes by at most so many rounds, 1 to 8, from the shard's layout on, each of which makes an exchange of two positions that lowers
        what the last 16 `range` queries with a `tau` of at most 16 would read of the shard's first 64 rows by key. The shard keeps its
        layout. Raises `BadRequest(6)` where there is no such shard, `OutOfMemory` and `Ended`.
        """
        words = self._met(b"search %d %d\n" % (_within(shard, 0, 99, "shard"), _within(rounds, 1, 8, "rounds")))
        return Found(int(words[3]), int(words[5]), int(words[7]), int(words[9]), words[10].decode("ascii"))

    def range(self, code: Code, tau: int) -> List[Hit]:
        """All rows at most `tau` bits from the code, 0 to `bits`, by distance and then by key. Raises what `open_range` does."""
        return next(self.range_many([code], tau)).hits

    def near(self, code: Code, k: int) -> List[Hit]:
        """The `k` rows nearest to the code, 1 to 1,048,576, or all where there are fewer, by distance and then by key. Raises what
        `open_near` does."""
        return next(self.near_many([code], k)).hits

    def open_range(self, code: Code, tau: int, each: int = 64) -> Query:
        """The same rows as `range`, fetched as they are consumed, `each` at a time (1 to 65,536). Raises `BadRequest(9)` where
        sixteen queries are open, `OutOfMemory` and `Ended`."""
        return self._open(b"range", self._radius(tau), code, each)

    def open_near(self, code: Code, k: int, each: int = 64) -> Query:
        """The same rows as `near`, fetched as they are consumed, `each` at a time (1 to 65,536). Raises `BadRequest(9)` where
        sixteen queries are open, `OutOfMemory` and `Ended`."""
        return self._open(b"near", _within(k, 1, NEAREST, "k"), code, each)

    def add_many(self, pairs: Iterable[Tuple[int, Code]], progress: Optional[Progress] = None) -> int:
        """Adds many rows, pairs of a key and a code, without waiting for one before the next; the number of them.

        `progress` is called with the number that was answered so far, now and then and at the end. Every pair is tried, also after
        one that was refused. Raises `SomeRefused` at the end where any was, with an exception for each; `Ended`; and what `pairs`
        itself raises, or `ValueError` of a pair, after which the pairs before it are added.
        """
        done = answered = 0
        refusals: List[Refused] = []
        for replies in self._in_flight(self._groups(pairs), GROUPS):
            refused = [refusal for refusal in (_refusal(reply.words) for reply in replies) if refusal]
            refusals += refused
            answered += len(replies)
            done += len(replies) - len(refused)
            if progress:
                progress(answered)
        if refusals:
            raise SomeRefused(done, refusals)
        return done

    def range_many(self, codes: Iterable[Code], tau: int, progress: Optional[Progress] = None) -> Iterator[Answer]:
        """The answer to `range` for each code, in their order, without waiting for one before the next is asked.

        Codes are taken as answers are consumed. `progress` is called with the number of answers given so far. Other calls may be
        made meanwhile: each query stands on the rows as they are when its code is taken. Raises what `open_range` does at the place
        of the query that was refused, which ends the iterator, and what `codes` itself raises.
        """
        return self._many(b"range", self._radius(tau), 1 << 64, codes, progress)

    def near_many(self, codes: Iterable[Code], k: int, progress: Optional[Progress] = None) -> Iterator[Answer]:
        """The answer to `near` for each code, as `range_many` does it."""
        return self._many(b"near", _within(k, 1, NEAREST, "k"), k, codes, progress)

    def _hex(self, code: Code) -> bytes:
        """The hexadecimal digits of a code in any of its forms; raises `ValueError` where it is none."""
        digits = self.bits // 4
        if isinstance(code, str):
            if len(code) == digits and _is_hex(code):
                return code.encode("ascii")
        elif isinstance(code, (bytes, bytearray)):
            if len(code) * 2 == digits:
                return code.hex().encode("ascii")
        elif 0 <= _whole(code) < 1 << self.bits:
            return b"%0*x" % (digits, _whole(code))
        forms = f"a whole number, {digits // 2} bytes or {digits} hexadecimal digits"
        raise ValueError(f"{code!r} is no code of {self.bits} bits: {forms}")

    def _radius(self, tau: int) -> int:
        return _within(tau, 0, self.bits, "tau")

    def _met(self, line: bytes) -> List[bytes]:
        """The words of the reply to one line; raises the refusal that they stand for."""
        return _met(self._channel.settle(self._channel.ask(line, 1))[0])

    def _position(self, line: bytes) -> int:
        return int(self._met(line)[3])

    def _add_line(self, key: int, code: Code) -> bytes:
        line = b"add %d %s\n" % (_key(key), self._hex(code))
        self._adds += 1
        return line

    def _groups(self, pairs: Iterable[Tuple[int, Code]]) -> Iterator[_Request]:
        """The lines that add the pairs, in groups. An exception of the pairs comes after the group that it cut short."""
        lines: List[bytes] = []
        failure: Optional[Exception] = None
        try:
            for key, code in pairs:
                lines.append(self._add_line(key, code))
                if len(lines) == GROUP:
                    yield b"".join(lines), GROUP
                    lines = []
        except Exception as error:
            failure = error
        if lines:
            yield b"".join(lines), len(lines)
        if failure:
            raise failure

    def _open(self, word: bytes, number: int, code: Code, each: int) -> Query:
        digits = self._hex(code)
        _within(each, 1, TURN, "each")
        self._free_dropped()
        self._opened += 1
        tag = b"q%d" % self._opened
        self._met(b"%s %s %d %s\n" % (word, tag, number, digits))
        return Query(self._channel, tag, each, self._dropped)

    def _free_dropped(self) -> None:
        while self._dropped:
            self._channel.ask(b"cancel %s\n" % self._dropped.pop(), 1)

    def _many(self, word: bytes, number: int, most: int, codes: Iterable[Code], progress: Optional[Progress]) -> Iterator[Answer]:
        """Whole answers to one query for each code, of at most so many hits."""
        requests = (self._whole_query(word, number, most, code) for code in codes)
        for answered, replies in enumerate(self._in_flight(requests, QUERIES), 1):
            _met(replies[0])
            if progress:
                progress(answered)
            yield Answer([hit for reply in replies for hit in reply.hits], _cost(replies[-2]))

    def _whole_query(self, word: bytes, number: int, most: int, code: Code) -> _Request:
        """The lines that open a query, take its whole answer of at most so many hits, and close it."""
        self._free_dropped()
        # all turns are asked for at once: one after the last hit costs nothing
        turns = max(1, -(-min(most, self._adds) // TURN))
        lines = [b"%s m %d %s\n" % (word, number, self._hex(code)), b"next m %d\n" % TURN * turns, b"cost m\ncancel m\n"]
        return b"".join(lines), turns + 3

    def _in_flight(self, requests: Iterable[_Request], most: int) -> Iterator[List[_Reply]]:
        """Sends requests, so many at a time at most, and gives the replies to each in order. An exception of the requests comes
        after the replies to those before it."""
        under_way: Deque[_Asked] = deque()
        failure: Optional[Exception] = None
        try:
            for lines, number in requests:
                under_way.append(self._channel.ask(lines, number))
                while under_way and (len(under_way) == most or not under_way[0].left):
                    yield self._channel.settle(under_way.popleft())
        except Exception as error:
            failure = error
        while under_way:
            yield self._channel.settle(under_way.popleft())
        if failure:
            raise failure


class _Row(NamedTuple):
    """A row of a file: the number of its line, its key, what it is called there, and its code in hexadecimal digits."""

    line: int
    key: int
    name: str
    code: str


class _Bar:
    """A progress bar on standard error, where that is a terminal."""

    WIDTH, SECONDS = 30, 0.1

    def __init__(self, what: str, total: int) -> None:
        self._what, self._total = what, total
        self._is_shown = sys.stderr.isatty()
        self._last = 0.0

    def __call__(self, done: int) -> None:
        now = time.monotonic()
        if not self._is_shown or done < self._total and now - self._last < self.SECONDS:
            return
        self._last = now
        filled = self.WIDTH * done // self._total
        end = "\n" if done == self._total else ""
        print(f"\r{self._what} [{'#' * filled:.<{self.WIDTH}}] {done:,} of {self._total:,}", end=end, file=sys.stderr, flush=True)


def _bits_of(lines: Sequence[str]) -> int:
    """The bits of the first code that the lines have; 64 where they have none."""
    for line in lines:
        words = line.split()
        if len(words) > 1 and _is_hex(words[-1]) and len(words[-1]) in range(2, 65, 2):
            return 4 * len(words[-1])
    return 64


def _row(number: int, line: str, bits: int, named: bool) -> _Row:
    """The row that a line `KEY HEX` gives; raises `ValueError` that says what is wrong with it."""
    words = line.rsplit(None, 1)
    if len(words) < 2:
        raise ValueError("it has one word, where a key and a code are wanted")
    name, code = words[0].strip(), words[1]
    if len(code) * 4 != bits or not _is_hex(code):
        raise ValueError(f"{code!r} at its end is no code of {bits} bits, {bits // 4} hexadecimal digits")
    if named:
        return _Row(number, number, name, code)
    if not (name.isascii() and name.isdigit() and len(name) <= 20 and int(name) < 1 << 64):
        raise ValueError(f"{name!r} is no key, a whole number from 0 to 2**64 - 1; with --names any name is one")
    return _Row(number, int(name), str(int(name)), code)


def _rows(lines: Sequence[str], bits: int, named: bool, tell: Callable[[str], object]) -> List[_Row]:
    """The rows that the lines give. Of each line that gives none, but for empty ones, it is told why."""
    rows: Dict[str, _Row] = {}
    for number, line in enumerate(lines, 1):
        if not line.strip():
            continue
        try:
            row = _row(number, line, bits, named)
            if row.name in rows:
                raise ValueError(f"{row.name!r} stands on line {rows[row.name].line} already")
            if len(rows) == NEAREST:
                raise ValueError(f"an index takes no more than {NEAREST:,} rows")
            rows[row.name] = row
        except ValueError as error:
            tell(f"line {number}: {error}")
    return list(rows.values())


def _neighbours(row: _Row, hits: List[Hit], k: Optional[int]) -> List[Hit]:
    """What is printed of the answer to one row: for pairs the hits of greater keys, and else the `k` nearest but the row itself."""
    if k is None:
        return [hit for hit in hits if hit.key > row.key]
    return [hit for hit in hits if hit.key != row.key][:k]


def _print_all(index: Index, rows: List[_Row], within: int, k: Optional[int]) -> Tuple[int, int]:
    """Prints the lines `NAME NAME DISTANCE` of all rows; how many, and the postings that were read."""
    names = {row.key: row.name for row in rows}
    # on a terminal the lines themselves show how far it is
    bar = None if sys.stdout.isatty() else _Bar("searching", len(rows))
    codes = (row.code for row in rows)
    printed = reads = 0
    for row, answer in zip(rows, index.range_many(codes, within, bar) if k is None else index.near_many(codes, k + 1, bar)):
        reads += answer.cost.reads
        for distance, key in _neighbours(row, answer.hits, k):
            print(row.name, names[key], distance, sep="\t")
            printed += 1
    return printed, reads


def _words(words: Optional[Sequence[str]]) -> argparse.Namespace:
    parser = argparse.ArgumentParser(
        prog="gph.py",
        description="Prints all pairs of rows within a distance, a line A, B, distance each with tabs between them. FILE has"
        " lines KEY HEX: a key and its code in hexadecimal digits. Bad lines are named on standard error with their numbers, and"
        " left out; the status is then 1.",
    )
    parser.add_argument("file", metavar="FILE", help="the file, or - for standard input")
    asked = parser.add_mutually_exclusive_group()
    asked.add_argument("--within", metavar="TAU", type=int, default=8, help="the greatest distance in bits (8)")
    asked.add_argument("--near", metavar="K", type=int, help="print the K nearest neighbours of each row instead")
    parser.add_argument("--names", action="store_true", help="keys are any names, also with spaces, and not numbers")
    parser.add_argument("--bits", metavar="L", type=int, help="bits of each code (those of the first code in FILE)")
    parser.add_argument("--parts", metavar="M", type=int, help="parts that a code is cut into (L / 8)")
    parser.add_argument("--shards", metavar="S", type=int, default=4, help="shards that the rows are kept in (4)")
    parser.add_argument("--program", metavar="PATH", help="the program, or its launcher")
    return parser.parse_args(words)


def _search(words: argparse.Namespace) -> int:
    """What the command does; its exit status."""
    bad: List[str] = []

    def tell(text: str) -> None:
        bad.append(text)
        print(f"{words.file}: {text}", file=sys.stderr)

    with open(0 if words.file == "-" else words.file, encoding="utf-8", errors="surrogateescape") as it:
        lines = it.read().split("\n")
    bits = words.bits or _bits_of(lines)
    if words.near is not None:
        _within(words.near, 1, NEAREST - 1, "--near")
    with Index(bits, words.parts, words.shards, words.program) as index:
        rows = _rows(lines, bits, words.names, tell)
        index.add_many(((row.key, row.code) for row in rows), _Bar("adding", len(rows)))
        printed, reads = _print_all(index, rows, words.within, words.near)
    scan = len(rows) ** 2
    print(
        f"{printed:,} lines; {len(rows):,} rows, {len(bad):,} bad lines. Postings read: {reads:,};"
        f" rows times queries: {scan:,}{f', {scan / reads:.1f} times as many' if reads else ''}",
        file=sys.stderr,
    )
    return 1 if bad else 0


def main(words: Optional[Sequence[str]] = None) -> int:
    """Runs the command with these words, by default those of the command line; its exit status."""
    sys.stdout.reconfigure(encoding="utf-8", errors="surrogateescape")  # type: ignore[union-attr]
    sys.stderr.reconfigure(errors="backslashreplace")  # type: ignore[union-attr]
    try:
        return _search(_words(words))
    except BrokenPipeError:
        # nobody reads the lines any more; and nothing is left to be written at the end
        os.dup2(os.open(os.devnull, os.O_WRONLY), sys.stdout.fileno())
        return 1
    except KeyboardInterrupt:
        return 130
    except (GphError, ValueError, OSError) as error:
        print(f"gph.py: {error}", file=sys.stderr)
        return 1


if __name__ == "__main__":
    sys.exit(main())
