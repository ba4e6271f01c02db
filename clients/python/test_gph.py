"""Tests of the Python client against the built program, which `./gph` or `rt ci` leaves. Run by .ci/client, or by
`python3 -m unittest` in this folder."""

from __future__ import annotations

import gc
import io
import os
import random
import signal
import subprocess
import sys
import tempfile
import time
import unittest
from contextlib import contextmanager
from typing import Dict, Iterator, List, Tuple

import gph
from gph import (
    Absent, BadRequest, Cost, Ended, Found, Full, Hit, Index, OtherBuild, OutOfMemory, Plan, RowsLeft, SomeRefused, Taken,
)

HERE = os.path.dirname(os.path.realpath(__file__))
TOP = os.path.dirname(os.path.dirname(HERE))
PROGRAM = os.path.join(TOP, "crates", "gph_server", "out", "gph_server")
# rows of the worked examples of docs/PROTOCOL.md
ROWS = {1: 0x00, 2: 0x0F, 3: 0xFF, 4: 0x01}


def index(**words: object) -> Index:
    return Index(program=PROGRAM, **words)  # type: ignore[arg-type]


@contextmanager
def worked(**words: object) -> Iterator[Index]:
    """The four rows of the worked examples, in codes of 8 bits."""
    with index(**{"bits": 8, "parts": 2, "shards": 1, **words}) as it:
        it.add_many(ROWS.items())
        yield it


@contextmanager
def script(text: str) -> Iterator[str]:
    """The path of a shell script, to be started in place of the program."""
    with tempfile.TemporaryDirectory() as folder:
        path = os.path.join(folder, "program")
        with open(path, "w", encoding="ascii") as it:
            it.write(f"#!/bin/sh\n{text}\n")
        os.chmod(path, 0o755)
        yield path


@contextmanager
def interrupt(seconds: float) -> Iterator[None]:
    """A keyboard interrupt after so long, unless what is inside has ended by then."""
    before = signal.signal(signal.SIGALRM, signal.default_int_handler)
    signal.setitimer(signal.ITIMER_REAL, seconds)
    try:
        yield
    finally:
        signal.setitimer(signal.ITIMER_REAL, 0)
        signal.signal(signal.SIGALRM, before)


def distance(one: int, other: int) -> int:
    return bin(one ^ other).count("1")


def scanned(rows: Dict[int, int], code: int) -> List[Hit]:
    """All rows by distance and then by key, found by looking at each."""
    return sorted(Hit(distance(code, other), key) for key, other in rows.items())


def near_copies(chance: random.Random, bits: int, number: int) -> Dict[int, int]:
    """Rows in groups of codes that differ in a few bits, under keys drawn from all."""
    rows: Dict[int, int] = {}
    code = 0
    while len(rows) < number:
        code = chance.getrandbits(bits) if chance.random() < 0.2 else code ^ 1 << chance.randrange(bits)
        rows[chance.getrandbits(64)] = code
    return rows


class WorkedExamples(unittest.TestCase):
    """What docs/PROTOCOL.md says of these rows."""

    def test_two_hits_in_order(self) -> None:
        with worked() as it:
            self.assertEqual(it.range(0, 1), [Hit(0, 1), Hit(1, 4)])

    def test_the_plan_and_the_cost_of_a_query(self) -> None:
        with worked() as it, it.open_range(0, 1) as query:
            self.assertEqual(list(query), [Hit(0, 1), Hit(1, 4)])
            self.assertEqual(query.plan(0), Plan(2, (-1, 1)))
            self.assertEqual(query.cost(), Cost(2, 2))

    def test_each_shard_has_its_plan(self) -> None:
        with worked(shards=2) as it:
            it.add(6, 0x10)
            with it.open_range(0, 1) as query:
                self.assertEqual(list(query), [Hit(0, 1), Hit(1, 4), Hit(1, 6)])
                self.assertEqual((query.plan(0), query.plan(1)), (Plan(2, (-1, 1)), Plan(1, (-1, 1))))
                self.assertEqual(query.cost(), Cost(3, 3))
                with self.assertRaises(BadRequest) as told:
                    query.plan(2)
                self.assertEqual(told.exception.number, 6)

    def test_an_entry_tells_its_number(self) -> None:
        with worked() as it:
            self.assertEqual((it.add(5, 0x80), it.delete(5), it.get(2)), (5, 6, 0x0F))

    def test_a_starting_layout(self) -> None:
        with index(bits=16, parts=3, shards=1) as it:
            self.assertEqual(it.layout(0), "0,1,2,3,4,5/6,7,8,9,10/11,12,13,14,15")
            with self.assertRaises(BadRequest) as told:
                it.layout(1)
            self.assertEqual((told.exception.number, told.exception.word), (6, 0))


class Builds(unittest.TestCase):
    """What docs/PROTOCOL.md says of another layout for a shard."""

    EVEN_AND_ODD = "0,2,4,6/1,3,5,7"

    def test_a_shard_is_repartitioned_under_an_open_query(self) -> None:
        with worked() as it:
            before = it.open_range(0, 3)
            self.assertEqual((it.repart(0, self.EVEN_AND_ODD), it.build(9), it.swap()), (4, 0, 4))
            self.assertEqual(list(before), [Hit(0, 1), Hit(1, 4)])
            after = it.open_range(0, 3)
            self.assertEqual(list(after), [Hit(0, 1), Hit(1, 4)])
            self.assertEqual((before.plan(0), after.plan(0)), (Plan(2, (-1, 3)), Plan(3, (-1, 3))))
            self.assertEqual(it.layout(0), self.EVEN_AND_ODD)

    def test_a_repartition_reads_fewer_postings(self) -> None:
        with index(bits=8, parts=2, shards=1) as it:
            it.add_many(enumerate((16 * one + other for one in (0, 1, 4, 5) for other in (0, 1, 4, 5)), 1))
            nearest = [Hit(0, 1), Hit(1, 2), Hit(1, 3), Hit(1, 5), Hit(1, 9)]
            first = next(it.range_many([0], 1))
            self.assertEqual((first.hits, first.cost), (nearest, Cost(8, 8)))
            self.assertEqual((it.repart(0, [range(0, 8, 2), range(1, 8, 2)]), it.build(9), it.build(), it.swap()), (16, 7, 0, 16))
            second = next(it.range_many([0], 1))
            self.assertEqual((second.hits, second.cost), (nearest, Cost(5, 5)))

    def test_a_build_follows_rows_that_are_deleted(self) -> None:
        with worked() as it:
            self.assertEqual((it.repart(0, self.EVEN_AND_ODD), it.build(2)), (4, 2))
            it.delete(1)
            it.delete(4)
            it.add(5, 0x02)
            self.assertEqual(it.build(), 0)
            it.delete(2)
            it.add(1, 0x03)
            self.assertEqual(it.swap(), 9)
            self.assertEqual(it.range(0x03, 8), scanned({1: 0x03, 3: 0xFF, 5: 0x02}, 0x03))

    def test_a_search_reads_fewer_postings(self) -> None:
        with index(bits=8, parts=2, shards=1) as it:
            it.add_many(enumerate((16 * one + other for one in (0, 1, 4, 5) for other in (0, 1, 4, 5)), 1))
            asked = [(0x00, 1), (0x55, 2)]
            before = [next(it.range_many([code], tau)) for code, tau in asked]
            self.assertEqual([answer.cost for answer in before], [Cost(8, 8), Cost(16, 16)])
            found = it.search(0)
            self.assertEqual(found, Found(24, 16, 2, 16, "5,1,7,3/4,0,6,2"))
            self.assertEqual(it.layout(0), "0,1,2,3/4,5,6,7")
            self.assertEqual((it.repart(0, found.layout), it.build(), it.swap(), it.layout(0)), (16, 0, 16, found.layout))
            after = [next(it.range_many([code], tau)) for code, tau in asked]
            self.assertEqual([answer.cost for answer in after], [Cost(5, 5), Cost(11, 11)])
            self.assertEqual([answer.hits for answer in after], [answer.hits for answer in before])

    def test_a_search_of_fewer_rounds_and_without_samples(self) -> None:
        with worked() as it:
            self.assertEqual(it.search(0), Found(0, 0, 0, 4, "0,1,2,3/4,5,6,7"))
            it.near(0, 2)
            self.assertEqual(it.search(0, 1), Found(0, 0, 0, 4, "0,1,2,3/4,5,6,7"))
            self.assertEqual((it.repart(0, "0,1,2,4/3,5,6,7"), it.build(), it.swap()), (4, 0, 4))
            it.range(0, 3)
            self.assertEqual(it.search(0, 1), Found(3, 2, 1, 4, "0,1,2,3/4,5,6,7"))
            for shard, rounds in ((0, 0), (0, 9), (-1, 1), (100, 1)):
                self.assertRaises(ValueError, it.search, shard, rounds)
            with self.assertRaises(BadRequest) as told:
                it.search(1)
            self.assertEqual((told.exception.number, told.exception.word), (6, 0))

    def test_refusals_of_builds(self) -> None:
        with worked() as it:
            self.assertRaises(OtherBuild, it.build)
            self.assertRaises(OtherBuild, it.swap)
            self.assertEqual(it.repart(0, self.EVEN_AND_ODD), 4)
            self.assertRaises(OtherBuild, it.repart, 0, self.EVEN_AND_ODD)
            self.assertEqual(it.build(1), 3)
            self.assertRaises(RowsLeft, it.swap)
            for shard, layout, number in ((1, self.EVEN_AND_ODD, 6), (1, "0", 5), (0, "0,1,2,3/4,5,6", 5), (0, [[0, 999]], 5)):
                with self.assertRaises(BadRequest, msg=layout) as told:
                    it.repart(shard, layout)
                self.assertEqual((told.exception.number, told.exception.word), (number, 3 if number == 5 else 0))
            self.assertEqual((it.build(), it.swap(), it.layout(0)), (0, 4, self.EVEN_AND_ODD))

    def test_what_can_be_no_layout_is_refused_before_it_is_sent(self) -> None:
        with worked() as it:
            for layout in ("", " ", "0 1", "0,1\nquit", "x", "٠", [[-1]], [[1000]], [["0"]], []):
                self.assertRaises(ValueError, it.repart, 0, layout)
            for rows in (0, 65_537, -1):
                self.assertRaises(ValueError, it.build, rows)
            self.assertRaises(ValueError, it.repart, 100, self.EVEN_AND_ODD)
            self.assertRaises(OtherBuild, it.build)

    def test_answers_are_those_of_a_scan_on_any_layout(self) -> None:
        chance = random.Random(64)
        rows = near_copies(chance, 64, 300)
        with index(shards=2) as it:
            it.add_many(rows.items())
            for shard in (0, 1, 0):
                positions = chance.sample(range(64), 64)
                left = it.repart(shard, [positions[at : at + 11] for at in range(0, 64, 11)])
                self.assertEqual(left, sum(key % 2 == shard for key in rows))
                while left:
                    left = it.build(40)
                    gone, code = chance.choice(sorted(rows)), chance.getrandbits(64)
                    it.delete(gone)
                    del rows[gone]
                    it.add(code, code)
                    rows[code] = code
                it.swap()
                for code in chance.sample(sorted(rows.values()), 5):
                    self.assertEqual(it.range(code, 20), [hit for hit in scanned(rows, code) if hit.distance <= 20])
                    self.assertEqual(it.near(code, 10), scanned(rows, code)[:10])


class Codes(unittest.TestCase):
    def test_the_three_forms_of_a_code_are_one(self) -> None:
        with index(bits=16) as it:
            it.add_many([(1, 0x00FF), (2, b"\x00\xff"), (3, "00ff"), (4, "00FF"), (5, bytearray(b"\x00\xff"))])
            self.assertEqual(it.range(0x00FF, 0), [Hit(0, key) for key in (1, 2, 3, 4, 5)])
            self.assertEqual({it.get(key) for key in (1, 2, 3, 4, 5)}, {0x00FF})

    def test_what_is_no_code_is_refused_before_it_is_sent(self) -> None:
        with index(bits=16) as it:
            for code in (-1, 1 << 16, b"\x00", b"\x00\x00\x00", "00f", "00fg", "00f\n", "0x0f", "٠٠٠٠", None, 1.0):
                with self.assertRaises(ValueError, msg=repr(code)):
                    it.add(1, code)  # type: ignore[arg-type]
            self.assertEqual(it.add(1, 0), 1)

    def test_numbers_out_of_range_are_refused_before_they_are_sent(self) -> None:
        with index(bits=8) as it:
            for call in (
                lambda: it.add(-1, 0), lambda: it.add(1 << 64, 0), lambda: it.range(0, 9), lambda: it.range(0, -1),
                lambda: it.near(0, 0), lambda: it.near(0, 1_048_577), lambda: it.open_range(0, 1, each=0),
            ):
                self.assertRaises(ValueError, call)
            self.assertEqual(it.add((1 << 64) - 1, 0), 1)

    def test_an_index_that_cannot_be_is_refused_before_it_starts(self) -> None:
        bad = ({"bits": 12}, {"bits": 264}, {"bits": 64, "parts": 5}, {"bits": 8, "parts": 9}, {"shards": 17}, {"entries": 0})
        for words in bad:
            with self.assertRaises(ValueError, msg=repr(words)):
                index(**words)


class Refusals(unittest.TestCase):
    """Each has its exception, and the index can be used after it."""

    def test_taken_and_absent(self) -> None:
        with worked() as it:
            with self.assertRaises(Taken) as taken:
                it.add(1, 0xFF)
            self.assertEqual((taken.exception.key, taken.exception.at), (1, 4))
            for call in (it.delete, it.get):
                with self.assertRaises(Absent) as absent:
                    call(9)
                self.assertEqual((absent.exception.key, absent.exception.at), (9, 4))
            self.assertEqual(it.get(1), 0)

    def test_full(self) -> None:
        with index(bits=8, entries=2) as it:
            it.add_many([(1, 0), (2, 0)])
            for call in (lambda: it.add(3, 0), lambda: it.delete(1)):
                with self.assertRaises(Full) as told:
                    call()
                self.assertEqual(told.exception.at, 2)
            self.assertEqual(len(it.range(0, 0)), 2)

    def test_a_seventeenth_query(self) -> None:
        with worked() as it:
            queries = [it.open_range(0, 8) for _ in range(16)]
            with self.assertRaises(BadRequest) as told:
                it.open_range(0, 8)
            self.assertEqual(told.exception.number, 9)
            queries[3].close()
            self.assertEqual(len(it.range(0, 8)), 4)

    def test_a_closed_query(self) -> None:
        with worked() as it:
            query = it.open_range(0, 8)
            query.close()
            query.close()
            self.assertEqual(list(query), [])
            with self.assertRaises(BadRequest) as told:
                query.cost()
            self.assertEqual(told.exception.number, 8)
            self.assertEqual(it.get(1), 0)

    def test_want_of_memory(self) -> None:
        with script(f'ulimit -v 60000\nexec "{PROGRAM}" "$@"') as small, Index(bits=256, program=small) as it:
            with self.assertRaises(SomeRefused) as told:
                it.add_many((key, key) for key in range(400_000))
            self.assertEqual({type(refusal) for refusal in told.exception.refusals}, {OutOfMemory})
            self.assertEqual(it.get(0), 0)

    def test_every_exception_tells_its_cause(self) -> None:
        told = [Taken(1, 2), Absent(1, 2), Full(2), OutOfMemory(), BadRequest(5, 3), BadRequest(99), Ended(6), Ended(-9), Ended(77)]
        for error in [*told, OtherBuild(10), RowsLeft(11), SomeRefused(3, [Full(2)])]:
            self.assertRegex(str(error), "^[a-z0-9]", repr(error))
            self.assertIsInstance(error, gph.GphError)


class Ends(unittest.TestCase):
    def test_a_program_that_is_ended_is_told_and_stays_so(self) -> None:
        with worked() as it:
            process = it._channel._program.process.pid
            os.kill(process, signal.SIGKILL)
            os.waitid(os.P_PID, process, os.WEXITED | os.WNOWAIT)
            for _ in range(2):
                with self.assertRaises(Ended) as told:
                    list(it.range_many([0] * 10_000, 8))
                self.assertEqual(told.exception.status, -signal.SIGKILL)

    def test_a_program_that_does_not_start(self) -> None:
        with self.assertRaises(Ended) as told:
            Index(program="/bin/false")
        self.assertEqual(told.exception.status, 1)
        self.assertRaises(FileNotFoundError, Index, program="/nowhere/gph")

    def test_closing_twice_and_asking_after_it(self) -> None:
        it = index()
        query = it.open_range(0, 0)
        it.close()
        it.close()
        self.assertRaises(Ended, it.add, 1, 0)
        self.assertRaises(Ended, next, query)
        query.close()

    def test_closing_waits_for_what_was_asked(self) -> None:
        with index(bits=8) as it:
            it.add_many((key, 0) for key in range(10_000))
            next(it.range_many([0] * 20, 0))
        with self.assertRaises(Ended) as told:
            it.add(1, 0)
        self.assertEqual(told.exception.status, 0)

    def test_an_interrupt_while_the_program_is_started(self) -> None:
        with script("exec sleep 60") as slow:
            begun = time.monotonic()
            with self.assertRaises(KeyboardInterrupt), interrupt(0.2):
                Index(program=slow)
            self.assertLess(time.monotonic() - begun, 10)

    def test_after_an_interrupt_no_answer_is_another_ones(self) -> None:
        chance = random.Random(7)
        for _ in range(20):
            with index(bits=8) as it:
                it.add_many((key, key % 2) for key in range(2_000))
                try:
                    with interrupt(0.001 + 0.03 * chance.random()):
                        list(it.range_many([0, 1] * 20, 0))
                except KeyboardInterrupt:
                    pass
                try:
                    self.assertEqual(it.range(1, 0), [Hit(0, key) for key in range(1, 2_000, 2)])
                    self.assertEqual(it.get(3), 1)
                except Ended:
                    pass

    def test_an_exception_inside_the_with_ends_the_program(self) -> None:
        with self.assertRaises(KeyError):
            with index() as it:
                process = it._channel._program.process
                raise KeyError
        self.assertEqual(process.returncode, -signal.SIGTERM)

    def test_the_launcher_of_the_repository_is_found(self) -> None:
        self.assertEqual(os.path.realpath(gph._launcher()), os.path.join(TOP, "gph"))


class Queries(unittest.TestCase):
    def test_hits_are_fetched_as_they_are_consumed(self) -> None:
        with index(bits=8) as it:
            it.add_many((key, 0) for key in range(2_000))
            query = it.open_range(0, 0, each=10)
            self.assertEqual([next(query).key for _ in range(25)], list(range(25)))
            self.assertEqual(len(query._fetched), 5)
            self.assertEqual([hit.key for hit in query], list(range(25, 2_000)))
            self.assertRaises(StopIteration, next, query)

    def test_an_answer_keeps_to_the_rows_at_its_opening(self) -> None:
        with worked() as it:
            query = it.open_range(0, 8, each=1)
            first = next(query)
            it.delete(4)
            it.add(5, 0)
            self.assertEqual([first, *query], [Hit(0, 1), Hit(1, 4), Hit(4, 2), Hit(8, 3)])
            self.assertEqual(it.range(0, 1), [Hit(0, 1), Hit(0, 5)])

    def test_queries_of_which_nobody_knows_are_closed(self) -> None:
        with worked() as it:
            for _ in range(50):
                self.assertEqual(next(it.open_range(0, 8)), Hit(0, 1))
                with it.open_range(0, 8) as query:
                    next(query)
                for _ in it.open_range(0, 8):
                    break
            gc.collect()
            self.assertEqual(len([it.open_range(0, 8) for _ in range(16)]), 16)

    def test_several_queries_in_turn(self) -> None:
        with worked() as it:
            queries = [it.open_range(code, 8, each=1) for code in ROWS.values()]
            in_turn = list(zip(*queries))
            self.assertEqual([list(one) for one in zip(*in_turn)], [scanned(ROWS, code) for code in ROWS.values()])


class Bulk(unittest.TestCase):
    def test_many_rows_and_answers_larger_than_a_pipe(self) -> None:
        done: List[int] = []
        with index(bits=8) as it:
            self.assertEqual(it.add_many(((key, key % 4) for key in range(50_000)), done.append), 50_000)
            self.assertEqual(done, sorted(done))
            self.assertEqual(done[-1], 50_000)
            done.clear()
            answers = list(it.range_many([0, 1] * 10, 1, done.append))
            self.assertEqual(done, list(range(1, 21)))
            self.assertEqual({len(answer.hits) for answer in answers}, {37_500})
            self.assertEqual(answers[0].hits[:2], [Hit(0, 0), Hit(0, 4)])

    def test_an_answer_of_more_hits_than_one_turn_gives(self) -> None:
        with index(bits=8, parts=1) as it:
            it.add_many((key, 0) for key in range(70_000))
            self.assertEqual([key for _, key in it.range(0, 0)], list(range(70_000)))
            self.assertEqual(sum(1 for _ in it.open_range(0, 0, each=65_536)), 70_000)

    def test_all_are_tried_and_each_refusal_is_told(self) -> None:
        with worked(entries=6) as it:
            with self.assertRaises(SomeRefused) as told:
                it.add_many([(1, 0), (5, 0), (2, 0), (6, 0), (7, 0)])
            self.assertEqual(told.exception.done, 2)
            self.assertEqual([str(it) for it in told.exception.refusals], [str(it) for it in (Taken(1, 4), Taken(2, 5), Full(6))])
            self.assertEqual([it.get(5), it.get(6)], [0, 0])

    def test_a_bad_pair_comes_after_those_before_it(self) -> None:
        with index(bits=8) as it:
            self.assertRaises(ValueError, it.add_many, [(1, 0), (2, 0), (3, "zz"), (4, 0)])
            self.assertEqual([key for _, key in it.range(0, 0)], [1, 2])
            answers = it.range_many([0, 0, "zz", 0], 0)
            self.assertEqual([len(next(answers).hits) for _ in range(2)], [2, 2])
            self.assertRaises(ValueError, next, answers)

    def test_other_calls_between_the_answers(self) -> None:
        with worked() as it:
            for at, answer in enumerate(it.range_many(iter([0] * 3_000), 8)):
                self.assertEqual(len(answer.hits), 4)
                if at % 100 == 0:
                    self.assertEqual(it.get(2), 0x0F)
                    self.assertRaises(Absent, it.get, 9)
                if at == 2_000:
                    break
            self.assertEqual(it.range(0, 1), [Hit(0, 1), Hit(1, 4)])

    def test_codes_are_taken_as_answers_are_consumed(self) -> None:
        with index(bits=8) as it:
            it.add_many((key, 0) for key in range(5_000))
            codes = iter([0] * 1_000)
            next(it.range_many(codes, 0))
            self.assertGreaterEqual(len(list(codes)), 1_000 - gph.QUERIES)

    def test_codes_without_end(self) -> None:
        def codes() -> Iterator[int]:
            while True:
                yield 0

        with worked() as it:
            answers = it.range_many(codes(), 0)
            self.assertEqual([next(answers).hits for _ in range(1_000)], [[Hit(0, 1)]] * 1_000)

    def test_nothing_to_do(self) -> None:
        with index() as it:
            self.assertEqual((it.add_many([]), list(it.range_many([], 0)), it.range(0, 64)), (0, [], []))


class AsAScan(unittest.TestCase):
    """Every answer is that of a scan over the rows, whatever was added and deleted."""

    def check(self, bits: int, number: int, **words: int) -> None:
        chance = random.Random(bits)
        rows = near_copies(chance, bits, number)
        with index(bits=bits, **words) as it:
            it.add_many(rows.items())
            for key in chance.sample(sorted(rows), number // 10):
                it.delete(key)
                del rows[key]
            codes = [chance.choice(list(rows.values())) ^ 1 << chance.randrange(bits) for _ in range(30)]
            for tau in (0, 1, 3, bits // 4, bits):
                for code, answer in zip(codes, it.range_many(codes, tau)):
                    self.assertEqual(answer.hits, [hit for hit in scanned(rows, code) if hit.distance <= tau])
                    self.assertLessEqual(answer.cost.reads, answer.cost.bound)

    def test_8_bits(self) -> None:
        self.check(8, 300, parts=1)

    def test_64_bits(self) -> None:
        self.check(64, 1_000)

    def test_72_bits_in_7_parts(self) -> None:
        self.check(72, 500, parts=7, shards=3)

    def test_256_bits(self) -> None:
        self.check(256, 300, shards=16)


class Nearest(unittest.TestCase):
    """What docs/PROTOCOL.md says of near queries, and a scan."""

    def test_the_nearest_three_of_four(self) -> None:
        with worked() as it, it.open_near(0, 3) as query:
            self.assertEqual(list(query), [Hit(0, 1), Hit(1, 4), Hit(4, 2)])
            self.assertEqual(query.cost().bound, 11)
            self.assertLessEqual(query.cost().reads, 11)

    def test_more_than_there_are(self) -> None:
        with worked() as it:
            answer = next(it.near_many([0], 100))
            self.assertEqual(answer.hits, scanned(ROWS, 0))
            self.assertEqual(answer.cost.bound, 27)
            self.assertLessEqual(answer.cost.reads, 27)

    def test_the_index_as_it_is_started(self) -> None:
        with index() as it:
            it.add_many([(101, "ffd8c0a0804020ff"), (102, "FFD8C0A0804021FF"), (103, "00273f5f7fbfdf00")])
            self.assertEqual(it.near("ffd8c0a0804020ff", 3), [Hit(0, 101), Hit(1, 102), Hit(64, 103)])

    def test_an_empty_index(self) -> None:
        with index() as it:
            self.assertEqual(it.near(0, 5), [])

    def test_hits_are_fetched_as_they_are_consumed(self) -> None:
        with worked() as it:
            query = it.open_near(0, 4, each=1)
            self.assertEqual(next(query), Hit(0, 1))
            it.delete(4)
            self.assertEqual(list(query), [Hit(1, 4), Hit(4, 2), Hit(8, 3)])

    def check(self, bits: int, number: int, **words: int) -> None:
        chance = random.Random(bits)
        rows = near_copies(chance, bits, number)
        codes = [chance.choice(list(rows.values())) ^ 1 << chance.randrange(bits) for _ in range(8)]
        with index(bits=bits, **words) as it:
            it.add_many(rows.items())
            for k in (1, 2, 10, number, number + 1):
                for code, answer in zip(codes, it.near_many(codes, k)):
                    self.assertEqual(answer.hits, scanned(rows, code)[:k])
                    self.assertLessEqual(answer.cost.reads, answer.cost.bound)

    def test_8_bits(self) -> None:
        self.check(8, 200, parts=2)

    def test_64_bits(self) -> None:
        self.check(64, 300)

    def test_256_bits(self) -> None:
        self.check(256, 100, shards=2)


class Command(unittest.TestCase):
    """`python3 gph.py FILE`."""

    def run_on(self, text: str, *words: str) -> Tuple[int, List[str], str]:
        ended = subprocess.run(
            [sys.executable, "-B", os.path.join(HERE, "gph.py"), f"--program={PROGRAM}", *words, "-"],
            input=text.encode("utf-8", "surrogateescape"), stdout=subprocess.PIPE, stderr=subprocess.PIPE, check=False,
        )
        return ended.returncode, ended.stdout.decode("utf-8", "surrogateescape").splitlines(), ended.stderr.decode("utf-8")

    def test_all_pairs(self) -> None:
        status, lines, told = self.run_on("1 00\n2 0f\n3 ff\n004 01\r\n\n5 00", "--within", "1")
        self.assertEqual((status, lines), (0, ["1\t5\t0", "1\t4\t1", "4\t5\t1"]))
        with index(bits=8) as it:
            it.add_many([(1, 0), (2, 0x0F), (3, 0xFF), (4, 1), (5, 0)])
            reads = sum(answer.cost.reads for answer in it.range_many([0, 0x0F, 0xFF, 1, 0], 1))
        self.assertIn(f"3 lines; 5 rows, 0 bad lines. Postings read: {reads}; rows times queries: 25", told)

    def test_the_nearest_neighbours_of_each(self) -> None:
        status, lines, _ = self.run_on("1 00\n2 0f\n3 ff\n4 01\n5 00\n", "--near", "2")
        wanted = ["1 5 0", "1 4 1", "2 4 3", "2 1 4", "3 2 4", "3 4 7", "4 1 1", "4 5 1", "5 1 0", "5 4 1"]
        self.assertEqual((status, lines), (0, [line.replace(" ", "\t") for line in wanted]))

    def test_a_row_among_many_of_its_code(self) -> None:
        status, lines, _ = self.run_on("1 00\n2 00\n3 00\n4 00\n", "--near", "1")
        self.assertEqual((status, lines), (0, ["1\t2\t0", "2\t1\t0", "3\t1\t0", "4\t1\t0"]))

    def test_names(self) -> None:
        status, lines, _ = self.run_on("beach.jpg ffff\na  small beach.jpg fffe\n街.png 0000\n", "--names", "--within", "3")
        self.assertEqual((status, lines), (0, ["beach.jpg\ta  small beach.jpg\t1"]))

    def test_bad_lines_are_named_and_nothing_is_lost(self) -> None:
        text = "1 00\nbeach 00\n2 0\n3 0g\n4\n1 01\n18446744073709551616 00\n18446744073709551615 01\n"
        status, lines, told = self.run_on(text, "--within", "1")
        self.assertEqual((status, lines), (1, ["1\t18446744073709551615\t1"]))
        self.assertEqual([line.split()[2] for line in told.splitlines() if " line " in line], ["2:", "3:", "4:", "5:", "6:", "7:"])
        self.assertIn("'1' stands on line 1 already", told)
        self.assertIn("2 rows, 6 bad lines", told)

    def test_a_name_that_is_no_text(self) -> None:
        status, lines, _ = self.run_on("caf\udce9 00\nb 00\n", "--names")
        self.assertEqual((status, lines), (0, ["caf\udce9\tb\t0"]))

    def test_an_empty_file(self) -> None:
        self.assertEqual(self.run_on("")[:2], (0, []))

    def test_what_cannot_be_done_is_one_line(self) -> None:
        for words in (("--bits", "12"), ("--within", "65"), ("--parts", "1"), ("--near", "0")):
            status, lines, told = self.run_on("1 0000000000000000\n", *words)
            self.assertEqual((status, lines, told.count("\n")), (1, [], 1), told)

    def test_the_bar_is_full_at_the_end(self) -> None:
        class Terminal(io.StringIO):
            def isatty(self) -> bool:
                return True

        told, sys.stderr = sys.stderr, Terminal()
        try:
            bar = gph._Bar("adding", 4)
            for done in range(1, 5):
                bar(done)
            text = sys.stderr.getvalue()
        finally:
            sys.stderr = told
        self.assertTrue(text.endswith(f"adding [{'#' * 30}] 4 of 4\n"), text)


if __name__ == "__main__":
    unittest.main()
