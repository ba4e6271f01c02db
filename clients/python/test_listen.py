"""Tests of `gph listen` over the loopback address, against the built program; by the client and by bare sockets. Run as those of
test_gph.py are."""

from __future__ import annotations

import socket
import struct
import subprocess
import threading
import time
import unittest
from contextlib import ExitStack, contextmanager
from typing import Iterator, List

from gph import Absent, BadRequest, Ended, Hit, Index
from test_gph import PROGRAM

# seconds that anything may take, and after which nothing is taken to come any more
LONG, SOON = 60, 0.5
# the rows of the worked examples of docs/PROTOCOL.md, and a query over them
WORKED = b"add 1 00\nadd 2 0f\nadd 3 ff\nadd 4 01\nrange a 1 00\nnext a 10\nquit\n"
ANSWERED = b"added 1 at 1\nadded 2 at 2\nadded 3 at 3\nadded 4 at 4\nopen a at 4\nhit a 0 1\nhit a 1 4\ndone a 2\n"


def free_port() -> int:
    with socket.socket() as it:
        it.bind(("127.0.0.1", 0))
        return int(it.getsockname()[1])


class Listener:
    """The program, which listens at a free port for so many connections, over codes of 8 bits."""

    def __init__(self, sessions: int, *words: str) -> None:
        self.port = free_port()
        asked = [PROGRAM, "listen", f"--port={self.port}", f"--sessions={sessions}", "--bits=8", "--parts=2", "--shards=1", *words]
        self.process = subprocess.Popen(asked, stdin=subprocess.DEVNULL, stdout=subprocess.PIPE, stderr=subprocess.PIPE)
        self.wait_for_port()

    def wait_for_port(self) -> None:
        """Waits until the port is bound, as the system's table of them tells, since a connection would count."""
        wanted = f"0100007F:{self.port:04X}"
        begun = time.monotonic()
        while self.process.poll() is None and time.monotonic() < begun + LONG:
            with open("/proc/net/tcp", encoding="ascii") as table:
                if any(row.split()[1] == wanted and row.split()[3] == "0A" for row in table):
                    return
            time.sleep(0.01)
        raise AssertionError("the program doesn't listen")

    def connect(self) -> socket.socket:
        it = socket.create_connection(("127.0.0.1", self.port), LONG)
        it.setsockopt(socket.IPPROTO_TCP, socket.TCP_NODELAY, 1)
        return it

    def index(self) -> Index:
        return Index(bits=8, port=self.port)

    def ended(self) -> List[object]:
        """Its status, and what it wrote on standard output and standard error, once it has ended."""
        out, err = self.process.communicate(timeout=LONG)
        return [self.process.returncode, out, err]


@contextmanager
def listening(sessions: int, *words: str) -> Iterator[Listener]:
    it = Listener(sessions, *words)
    try:
        yield it
    finally:
        it.process.kill()
        it.process.communicate()


def all_of(it: socket.socket) -> bytes:
    """What comes until the other side ends."""
    blocks = []
    while True:
        block = it.recv(1 << 16)
        if not block:
            return b"".join(blocks)
        blocks.append(block)


def asked(it: socket.socket, lines: bytes, last: bytes) -> bytes:
    """Sends lines, and reads until what has come ends so."""
    it.sendall(lines)
    come = b""
    while not come.endswith(last):
        block = it.recv(1 << 16)
        if not block:
            raise AssertionError(f"the connection ended after {come!r}")
        come += block
    return come


def cut_off(it: socket.socket) -> None:
    """Ends a connection at once, both ways, as the system does for a client that was killed with bytes unread."""
    it.setsockopt(socket.SOL_SOCKET, socket.SO_LINGER, struct.pack("ii", 1, 0))
    it.close()


class Connections(unittest.TestCase):
    def test_a_connection_is_a_session(self) -> None:
        with listening(1) as it:
            with it.connect() as client:
                client.sendall(WORKED)
                self.assertEqual(all_of(client), ANSWERED)
            self.assertEqual(it.ended(), [0, b"closed at 4\n", b""])

    def test_a_session_ends_with_its_input_too(self) -> None:
        with listening(1) as it:
            with it.connect() as client:
                client.sendall(b"add 1 00\nget 1")
                client.shutdown(socket.SHUT_WR)
                self.assertEqual(all_of(client), b"added 1 at 1\ncode 1 00 at 1\n")
            self.assertEqual(it.ended(), [0, b"closed at 1\n", b""])

    def test_each_reply_comes_before_the_next_request(self) -> None:
        with listening(1) as it:
            with it.connect() as client:
                for line, reply in zip(WORKED.splitlines(True), ANSWERED.splitlines(True)[:5]):
                    self.assertEqual(asked(client, line, b"\n"), reply)
                self.assertEqual(asked(client, b"next a 10\n", b"done a 2\n"), b"hit a 0 1\nhit a 1 4\ndone a 2\n")
            self.assertEqual(it.ended(), [0, b"closed at 4\n", b""])

    def test_sessions_after_one_another_have_the_same_rows(self) -> None:
        with listening(3) as it:
            for key in range(3):
                with it.connect() as client:
                    client.sendall(b"add %d %02x\nrange a 8 00\nnext a 9\nquit\n" % (key, key))
                    self.assertEqual(all_of(client).count(b"hit a"), key + 1)
            self.assertEqual(it.ended(), [0, b"closed at 3\n", b""])

    def test_eight_are_served_at_once_and_a_ninth_after_one_of_them(self) -> None:
        with listening(9) as it, ExitStack() as stack:
            clients = [stack.enter_context(it.connect()) for _ in range(8)]
            # each is answered while all others are open
            for key, client in enumerate(clients):
                asked(client, b"add %d %02x\n" % (key, key), b"\n")
            for client in clients:
                come = asked(client, b"range a 8 00\nnext a 9\n", b"done a 8\n")
                self.assertEqual(sorted(int(row.split()[3]) for row in come.splitlines() if row.startswith(b"hit")), list(range(8)))
            ninth = stack.enter_context(it.connect())
            ninth.sendall(b"get 0\n")
            ninth.settimeout(SOON)
            self.assertRaises(socket.timeout, ninth.recv, 1)
            ninth.settimeout(LONG)
            clients[3].close()
            self.assertEqual(asked(ninth, b"", b"\n"), b"code 0 00 at 8\n")
            for client in (*clients, ninth):
                client.close()
            self.assertEqual(it.ended(), [0, b"closed at 8\n", b""])

    def test_many_write_side_by_side(self) -> None:
        def write(client: socket.socket, first: int) -> None:
            lines = b"".join(b"add %d %02x\n" % (key, key % 256) for key in range(first, first + 500))
            client.sendall(lines + b"quit\n")
            found[first] = all_of(client)

        found: dict = {}
        with listening(8) as it, ExitStack() as stack:
            clients = [stack.enter_context(it.connect()) for _ in range(8)]
            threads = [threading.Thread(target=write, args=(client, 1000 * at)) for at, client in enumerate(clients)]
            for thread in threads:
                thread.start()
            for thread in threads:
                thread.join(LONG)
            positions = []
            for first, come in found.items():
                rows = [row.split() for row in come.splitlines()]
                self.assertEqual([int(row[1]) for row in rows], list(range(first, first + 500)))
                mine = [int(row[3]) for row in rows]
                self.assertEqual(mine, sorted(mine))
                positions += mine
            # one history: each entry has a position of its own
            self.assertEqual(sorted(positions), list(range(1, 4001)))
            self.assertEqual(it.ended(), [0, b"closed at 4000\n", b""])

    def test_all_replies_come_where_more_is_sent_past_quit(self) -> None:
        with listening(1) as it:
            with it.connect() as client:
                client.sendall(WORKED + b"add 5 00\n" * 20_000)
                self.assertEqual(all_of(client), ANSWERED)
            self.assertEqual(it.ended(), [0, b"closed at 4\n", b""])


class Ends(unittest.TestCase):
    def test_a_client_that_goes_away_in_the_middle_of_a_line(self) -> None:
        for leave in (socket.socket.close, cut_off):
            with listening(2) as it:
                client = it.connect()
                asked(client, b"add 1 00\nadd 2 0", b"\n")
                leave(client)
                with it.connect() as other:
                    other.sendall(b"get 1\nget 2\nquit\n")
                    come = all_of(other)
                # a line without its end is answered where the input has ended, and isn't where a read failed
                self.assertEqual(come.splitlines()[0][:9], b"code 1 00")
                self.assertEqual(it.ended()[0], 0)

    def test_a_client_that_goes_away_in_the_middle_of_a_reply(self) -> None:
        with listening(2) as it:
            client = it.connect()
            rows = 20_000
            threading.Thread(
                target=client.sendall, args=(b"".join(b"add %d %02x\n" % (key, key % 256) for key in range(rows)),), daemon=True
            ).start()
            come = b""
            while come.count(b"\n") < rows:
                come += client.recv(1 << 16)
            client.sendall(b"range a 8 00\nnext a 65536\n" * 5)
            client.recv(100)
            cut_off(client)
            with it.connect() as other:
                other.sendall(b"get 19999\nquit\n")
                self.assertEqual(all_of(other), b"code 19999 1f at 20000\n")
            self.assertEqual(it.ended(), [0, b"closed at 20000\n", b""])

    def test_a_limit_of_the_input_ends_a_connection_alone(self) -> None:
        with listening(2, "--input=12") as it:
            for reply in (b"added 1 at 1\n", b"taken 1 at 1\n"):
                with it.connect() as client:
                    client.sendall(b"add 1 00\nget 1\n")
                    self.assertEqual(all_of(client), reply)
            self.assertEqual(it.ended(), [0, b"closed at 1\n", b""])

    def test_a_port_in_use(self) -> None:
        with socket.socket() as other:
            other.bind(("127.0.0.1", 0))
            other.listen()
            told = subprocess.run(
                [PROGRAM, "listen", "--port", str(other.getsockname()[1]), "--sessions", "1"], capture_output=True, timeout=LONG, check=False
            )
        self.assertEqual((told.returncode, told.stdout, told.stderr), (9, b"", b"gph: listen failed\n"))

    def test_words_that_are_none_of_its_own(self) -> None:
        for words, at in (([], 2), (["--port", "0"], 3), (["--port=7", "--sessions=65537"], 3), (["--port=7", "--codes=1"], 3)):
            told = subprocess.run([PROGRAM, "listen", *words], capture_output=True, timeout=LONG, check=False)
            self.assertEqual((told.returncode, told.stdout, told.stderr), (2, b"", b"gph: usage at word %d\n" % at))


class Turns(unittest.TestCase):
    def test_a_cheaper_layout_is_found_once_a_connection_has_ended(self) -> None:
        with listening(3) as it:
            with it.connect() as client:
                client.sendall(b"add 1 00\nadd 2 1f\nadd 3 e3\nrepart 0 0,1,2,6/3,4,5,7\nbuild 9\nswap\nquit\n")
                self.assertTrue(all_of(client).endswith(b"swapped 0 at 3\n"))
            with it.connect() as other:
                begun = time.monotonic()
                come = b""
                while time.monotonic() < begun + LONG and come != b"layout 0 3,1,2,6/0,4,5,7\n":
                    come = asked(other, b"layout 0\n", b"\n")
                self.assertEqual(come, b"layout 0 3,1,2,6/0,4,5,7\n")
            with it.connect() as last:
                last.sendall(b"layout 0\nquit\n")
                self.assertEqual(all_of(last), b"layout 0 3,1,2,6/0,4,5,7\n")
            self.assertEqual(it.ended(), [0, b"closed at 3\n", b""])


class OverAPort(unittest.TestCase):
    """The client of gph.py at a port in place of a pipe."""

    def test_two_indexes_have_the_same_rows(self) -> None:
        with listening(2) as it:
            with it.index() as one, it.index() as other:
                one.add_many({1: 0x00, 2: 0x0F, 3: 0xFF, 4: 0x01}.items())
                self.assertEqual(other.range(0, 1), [Hit(0, 1), Hit(1, 4)])
                query = one.open_range(0, 1)
                other.delete(4)
                self.assertRaises(Absent, one.get, 4)
                self.assertEqual(list(query), [Hit(0, 1), Hit(1, 4)])
                self.assertEqual([answer.hits for answer in one.near_many([0x00, 0xFF], 1)], [[Hit(0, 1)], [Hit(0, 3)]])
            self.assertEqual(it.ended(), [0, b"closed at 5\n", b""])

    def test_many_rows_and_whole_answers(self) -> None:
        with listening(2) as it:
            with it.index() as one, it.index() as other:
                one.add_many((key, key % 256) for key in range(70_000))
                hits = other.range(0, 8)
                self.assertEqual((len(hits), hits[0], hits[-1]), (70_000, Hit(0, 0), Hit(8, 69_887)))
            self.assertEqual(it.ended(), [0, b"closed at 70000\n", b""])

    def test_other_bits_than_those_of_the_listener(self) -> None:
        with listening(1) as it:
            with Index(bits=16, port=it.port) as one:
                self.assertRaises(BadRequest, one.add, 1, 0)
            self.assertEqual(it.ended(), [0, b"closed at 0\n", b""])

    def test_a_listener_that_serves_no_more(self) -> None:
        with listening(1) as it:
            with it.index() as one:
                one.add(1, 0)
                it.process.kill()
                it.process.wait()
                with self.assertRaises(Ended) as told:
                    one.get(1)
                self.assertIsNone(told.exception.status)
            self.assertRaises(ConnectionRefusedError, it.index)


if __name__ == "__main__":
    unittest.main()
