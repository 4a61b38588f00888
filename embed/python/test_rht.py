"""Tests of the module rht: each call, wrong uses, threads, signals, forks, and the header that it was written after.

They run by `python3 embed/python/test_rht.py`, with the library that rht finds.
"""

import contextlib
import copy
import ctypes
import os
import pickle
import random
import re
import shutil
import signal
import subprocess
import sys
import tempfile
import threading
import time
import unittest
from unittest import mock

HERE = os.path.dirname(os.path.abspath(__file__))
sys.path.insert(0, HERE)

import rht  # noqa: E402
from rht import (  # noqa: E402
    Absent, Again, Bound, Busy, Clear, Cursor, Elsewhere, Ended, Exists, Idle, Moved, NoNode, NoTable, Pair,
    Pending, Port, Rebound, Released, TooBig, Walked,
)


def small(**more):
    """4 buckets, and a port's number picks its bucket."""
    return rht.Table(hint=3, low=True, **more)


def begin(seat, name, *args):
    """Begins a call, and leaves it in progress."""
    code = getattr(rht._lib, name)(seat._at, *args, ctypes.byref(rht._Reply()))
    assert code == rht._NOT_YET, code


def begin_bind(seat, number, owner):
    begin(seat, "rht_bind_begin", rht._Port(number, 0), owner)


@contextlib.contextmanager
def in_use(*seats):
    """These seats are in use, as by a call of another thread."""
    hold = rht._Hold()
    with hold.lock:
        for seat in seats:
            seat._hold(hold)
        yield


class Calls(unittest.TestCase):
    """Each call, by one thread. The replies are worked out by hand."""

    def test_a_port_is_bound_found_and_released(self):
        with rht.Table() as table:
            (seat,) = table.seats
            self.assertIsNone(seat.find(80))
            self.assertEqual(seat.bind(80, 100), Bound(kick=False))
            self.assertEqual(seat.find(Port(80)), 100)
            self.assertEqual(seat.bind(80, 200), Exists(100))
            self.assertEqual(seat.release(80, 200), Absent())
            self.assertEqual(seat.release(80, 100), Released(kick=False))
            self.assertIsNone(seat.find(80))

    def test_a_net_is_a_part_of_the_port(self):
        with rht.Table() as table:
            (seat,) = table.seats
            self.assertTrue(seat.bind(Port(80, 1), 0))
            self.assertTrue(seat.bind((80, 65535), 4294967295))
            self.assertEqual(seat.find(Port(80, 1)), 0)
            self.assertEqual(seat.find(Port(80, 65535)), 4294967295)
            self.assertIsNone(seat.find(80))

    def test_a_rebind_takes_a_node(self):
        with rht.Table(nodes=2) as table:
            (seat,) = table.seats
            seat.bind(7, 1)
            self.assertEqual(seat.rebind(7, 2, 3), Absent())
            self.assertEqual(seat.rebind(7, 1, 2), Rebound())
            self.assertEqual(seat.rebind(7, 2, 3), NoNode())
            self.assertEqual(seat.bind(8, 1), NoNode())
            self.assertEqual(seat.tidy(), Clear(1))
            self.assertEqual(seat.tidy(), Clear(0))
            self.assertEqual(seat.rebind(7, 2, 3), Rebound())
            self.assertEqual(seat.find(7), 3)

    def test_a_port_of_a_listed_table_has_its_owners_in_order(self):
        with rht.Table(listed=True) as table:
            (seat,) = table.seats
            for owner in (5, 6, 5):
                self.assertEqual(seat.bind(80, owner), Bound(kick=False))
            self.assertEqual(seat.all(80), [5, 6, 5])
            self.assertEqual(seat.all(81), [])
            self.assertTrue(seat.release(80, 5))
            self.assertTrue(seat.rebind(80, 6, 9))
            self.assertEqual(seat.all(80), [9, 5])
            self.assertEqual(seat.count(), 1)

    def test_a_call_in_progress_holds_nodes_back(self):
        with rht.Table(callers=2) as table:
            one, two = table.seats
            one.bind(80, 1)
            one.release(80, 1)
            begin(two, "rht_all_begin", rht._Port(80, 0))
            pending = one.tidy()
            self.assertIsInstance(pending, Pending)
            self.assertEqual((pending.caller, pending.section % 2), (1, 1))
            self.assertEqual(one.tidy(), pending)
            self.assertIsNone(two.find(80))
            self.assertEqual(one.tidy(), Clear(1))

    def test_a_table_grows_by_work(self):
        with small() as table:
            (seat,) = table.seats
            self.assertEqual(seat.work(), Idle())
            replies = [seat.bind(number, number) for number in range(4)]
            self.assertEqual(replies, [Bound(False)] * 3 + [Bound(True)])
            self.assertEqual(seat.work(), Moved(again=False))
            self.assertEqual([seat.find(number) for number in range(5)], [0, 1, 2, 3, None])

    def test_one_seat_works_at_a_time(self):
        with small(callers=2) as table:
            one, two = table.seats
            begin(one, "rht_work_begin")
            self.assertEqual(two.work(), Elsewhere())

    def test_a_full_bucket_asks_for_work(self):
        with rht.Table(low=True) as table:
            (seat,) = table.seats
            for number in range(16):
                self.assertEqual(seat.bind(64 * number, 1, once=True), Bound(False))
            self.assertEqual(seat.bind(64 * 16, 1, once=True), Again(1))
            self.assertIsNone(seat.find(64 * 16))
            for number in range(16, 32):
                self.assertTrue(seat.bind(64 * number, 1))
            self.assertEqual(seat.bind(64 * 32, 1), Busy(0, 1))
            self.assertEqual(seat.work(), Moved(again=False))
            self.assertEqual(seat.bind(64 * 32, 1), Bound(True))

    def test_a_table_may_be_too_big(self):
        with rht.Table(hint=3, max=7) as table:
            (seat,) = table.seats
            self.assertTrue(all(seat.bind(number, 1) for number in range(8)))
            self.assertEqual(seat.bind(8, 1), TooBig(8))

    def test_no_further_table_may_be_had(self):
        with rht.Table(pages=4, min=256, low=True) as table:
            (seat,) = table.seats
            self.assertTrue(all(seat.bind(number, 1) for number in range(257)))
            self.assertEqual(seat.bind(257, 1), NoTable(512))
            self.assertEqual(seat.work(), NoTable(512))

    def test_replies_of_two_kinds_are_never_equal(self):
        self.assertNotEqual(Bound(True), Moved(True))
        self.assertNotEqual(Idle(), Elsewhere())
        true = [Bound(False), Released(False), Rebound(), Walked([], None), Moved(False), Clear(0)]
        self.assertTrue(all(true))
        self.assertFalse(any([Exists(1), TooBig(1), Busy(1, 1), NoTable(1), NoNode(), Again(1), Absent()]))
        self.assertFalse(any([Idle(), Elsewhere(), Pending(1, 1)]))


class InOneGo(unittest.TestCase):
    """Binds and releases go in one go first. By the library's functions it is seen where they leave off."""

    def begun_in(self, seat, name, number, owner, rounds):
        """The code of a call in one go."""
        function = getattr(rht._lib, name)
        return function(seat._at, rht._Port(number, 0), owner, rounds, ctypes.byref(rht._Reply()))

    def go_on(self, seat, operations):
        return rht._lib.rht_go_on(seat._at, operations, ctypes.byref(rht._Reply()))

    def with_a_lock(self):
        """Two seats of a table in which port 80 is 7's. Eleven operations of a bind by the second one have led it to
        the lock of that port's bucket, which it has. The table ends by turns, also where the test fails."""
        table = rht.Table(callers=2)
        self.addCleanup(table.end)
        seat, other = table.seats
        self.assertTrue(seat.bind(80, 7))
        begin_bind(other, 80, 200)
        self.assertEqual(self.go_on(other, 10), rht._NOT_YET)
        return seat, other

    def test_one_round_is_enough_where_nobody_is_in_the_way(self):
        with rht.Table() as table:
            (seat,) = table.seats
            self.assertEqual(self.begun_in(seat, "rht_release_in", 80, 100, 1), rht._ABSENT)
            self.assertEqual(self.begun_in(seat, "rht_bind_in", 80, 100, 1), rht._BOUND)
            self.assertEqual(self.begun_in(seat, "rht_bind_in", 80, 200, 1), rht._EXISTS)
            self.assertEqual(self.begun_in(seat, "rht_bind_once_in", 81, 101, 1), rht._BOUND)
            self.assertEqual(self.begun_in(seat, "rht_release_in", 80, 100, 1), rht._RELEASED)
            self.assertEqual((seat.find(80), seat.find(81)), (None, 101))

    def test_a_seat_s_calls_end_without_going_on(self):
        with rht.Table() as table, mock.patch.object(rht._lib, "rht_go_on", return_value=99):
            (seat,) = table.seats
            self.assertEqual(seat.bind(80, 100), Bound(False))
            self.assertEqual(seat.bind(80, 200), Exists(100))
            self.assertEqual(seat.bind(81, 101, once=True), Bound(False))
            self.assertEqual(seat.release(80, 200), Absent())
            self.assertEqual(seat.release(80, 100), Released(False))
            self.assertRaises(rht.Misfit, seat.work)

    def test_without_a_round_a_call_is_left_before_the_lock(self):
        with rht.Table(callers=2) as table:
            seat, other = table.seats
            for name, owner, code in [
                ("rht_bind_in", 100, rht._BOUND), ("rht_release_in", 100, rht._RELEASED),
                ("rht_bind_once_in", 101, rht._BOUND),
            ]:
                self.assertEqual(self.begun_in(seat, name, 80, owner, 0), rht._NOT_YET)
                for refused in ("rht_bind_in", "rht_bind_once_in", "rht_release_in"):
                    self.assertEqual(self.begun_in(seat, refused, 80, owner, 1), rht._IN_CALL)
                self.assertEqual(self.begun_in(other, "rht_release_in", 80, 7, 1), rht._ABSENT)
                self.assertEqual(self.go_on(seat, 1), rht._NOT_YET)
                self.assertEqual(self.go_on(seat, 1000), code)
            self.assertEqual(other.find(80), 101)

    def test_a_call_is_left_at_a_lock(self):
        for name, code in [
            ("rht_bind_in", rht._EXISTS), ("rht_bind_once_in", rht._EXISTS), ("rht_release_in", rht._RELEASED),
        ]:
            seat, other = self.with_a_lock()
            self.assertEqual(self.begun_in(seat, name, 80, 7, 3), rht._NOT_YET)
            self.assertEqual(self.go_on(seat, 5), rht._NOT_YET)
            self.assertEqual(self.go_on(other, 1000), rht._EXISTS)
            self.assertEqual(self.go_on(seat, 1000), code)

    def test_a_seat_waits_for_a_lock(self):
        for call, reply in [
            (lambda seat: seat.bind(80, 100), Exists(7)), (lambda seat: seat.bind(80, 100, once=True), Exists(7)),
            (lambda seat: seat.release(80, 7), Released(False)),
        ]:
            seat, other = self.with_a_lock()
            codes = []
            with mock.patch("rht.time.sleep", lambda _: codes.append(self.go_on(other, 1000))):
                self.assertEqual(call(seat), reply)
            self.assertEqual(codes, [rht._EXISTS])


class Walks(unittest.TestCase):
    """Walks, in pieces and as a whole."""

    def test_a_walk_goes_on_in_pieces(self):
        with small() as table:
            (seat,) = table.seats
            for number in (1, 2, 3):
                seat.bind(number, 10 * number)
            one, two, three = (Pair(Port(number), 10 * number) for number in (1, 2, 3))
            self.assertEqual(seat.walk(limit=0), Walked([], Cursor(0, 1)))
            self.assertEqual(seat.walk(Cursor(0, 1), 2), Walked([one, two], Cursor(0, 3)))
            self.assertEqual(seat.walk(Cursor(0, 3)), Walked([three], None))
            self.assertEqual(seat.walk(), Walked([one, two, three], None))
            self.assertEqual(seat.walk(Cursor(0, 4)), Again(0))
            self.assertEqual(seat.walk((9, 0)), Again(0))

    def test_pairs_come_one_after_another(self):
        with rht.Table() as table:
            (seat,) = table.seats
            for number in range(40):
                self.assertTrue(seat.bind(Port(number, 3), number + 1))
            with mock.patch.object(rht, "_PIECE", 5):
                seen = {port.number: owner for port, owner in seat.pairs() if port.net == 3}
            self.assertEqual(seen, {number: number + 1 for number in range(40)})
            self.assertEqual(len(seat.pairs()), 40)

    def test_pairs_begin_anew_behind_work(self):
        with small() as table:
            (seat,) = table.seats
            for number in range(6):
                self.assertTrue(seat.bind(number, 1))
            self.assertEqual(seat.walk(), Again(1))
            self.assertEqual(seat.walk(), Again(1))
            self.assertEqual(sorted(port.number for port, _ in seat.pairs()), list(range(6)))
            self.assertIsInstance(seat.walk(), Walked)

    def test_pairs_are_tried_so_many_times(self):
        with small() as table:
            (seat,) = table.seats
            self.assertRaises(rht.NotWhole, seat.pairs, 0)
            for number in range(6):
                seat.bind(number, 1)
            self.assertRaises(rht.NotWhole, seat.pairs, 1)
            self.assertEqual(len(seat.pairs(1)), 6)


class Ends(unittest.TestCase):
    """What is bound where all seats of a table are closed together."""

    def assert_closed(self, table):
        for seat in table.seats:
            self.assertFalse(seat._handle.in_use)
            self.assertRaises(rht.SeatClosed, seat.count)

    def assert_open(self, *seats):
        """These seats are open, in no call, and see that port 80 is 100's."""
        for seat in seats:
            self.assertEqual(seat.find(80), 100)

    def test_bindings_come_in_rising_order_of_ports(self):
        with rht.Table(callers=3) as table:
            one, two, three = table.seats
            one.bind(Port(7, 3), 0)
            two.bind(4294967295, 1)
            three.bind(Port(0, 65535), 2)
            one.bind(Port(6, 3), 3)
            two.bind(9, 4)
            three.bind(Port(8, 1), 5)
            self.assertTrue(one.release(Port(8, 1), 5))
            self.assertTrue(two.rebind(9, 4, 40))
            bindings = [
                (Port(9), [40]), (Port(4294967295), [1]), (Port(6, 3), [3]), (Port(7, 3), [0]), (Port(0, 65535), [2]),
            ]
            self.assertEqual(table.end(), Ended(bindings, 64))
            self.assert_closed(table)

    def test_a_port_has_its_owners_in_order(self):
        with small(callers=2, listed=True) as table:
            one, two = table.seats
            for seat, owner in ((one, 5), (two, 6), (one, 5), (two, 4)):
                seat.bind(80, owner)
            one.bind(1, 9)
            self.assertEqual(table.end(), Ended([(Port(1), [9]), (Port(80), [4, 5, 6, 5])], 4))

    def test_a_table_may_be_empty(self):
        for callers in (1, 16):
            self.assertEqual(rht.Table(callers=callers).end(), Ended([], 64))

    def test_each_node_has_its_place(self):
        for listed, ports in ((False, 100), (True, 3)):
            with rht.Table(callers=2, nodes=100, hint=96, listed=listed) as table:
                for number in range(100):
                    self.assertTrue(table.seats[number % 2].bind(number % ports, number))
                self.assertEqual(table.seats[0].bind(101, 1), NoNode())
                bindings = [(Port(port), list(range(port, 100, ports))[::-1]) for port in range(ports)]
                self.assertEqual(table.end(), Ended(bindings, 128))

    def test_a_table_behind_is_told_too(self):
        for works in range(2):
            with small() as table:
                (seat,) = table.seats
                for number in range(6):
                    self.assertTrue(seat.bind(number, 1))
                for _ in range(works):
                    self.assertEqual(seat.work(), Moved(again=False))
                self.assertEqual(table.end(), Ended([(Port(number), [1]) for number in range(6)], 4 << works))

    def test_seats_that_were_closed_have_left_what_they_bound(self):
        for closed in ([0], [1], [2], [0, 1], [0, 2], [1, 2]):
            with rht.Table(callers=3) as table:
                for seat in table.seats:
                    seat.bind(seat.caller, 7)
                for caller in closed:
                    table.seats[caller].close()
                self.assertEqual(table.end().bindings, [(Port(number), [7]) for number in range(3)])
                self.assert_closed(table)

    def test_it_ends_once(self):
        with rht.Table(callers=2) as table:
            table.end()
            self.assertRaises(rht.SeatClosed, table.end)
        table.close()
        self.assertRaises(rht.SeatClosed, table.end)
        with rht.Table() as table:
            pass
        self.assertRaises(rht.SeatClosed, table.end)

    def test_a_seat_in_use_is_not_waited_for(self):
        with rht.Table(callers=3) as table:
            one, two, three = table.seats
            one.bind(80, 100)
            with in_use(two):
                self.assertRaises(rht.SeatInUse, table.end)
                self.assert_open(one, three)
            self.assert_open(one, two, three)
            self.assertEqual(table.end().bindings, [(Port(80), [100])])

    def test_calls_that_were_broken_off_are_finished_by_turns(self):
        for operations in range(1, 30):
            for first, second in ((0, 1), (1, 0)):
                table = rht.Table(callers=2)
                for caller in (first, second):
                    seat = table.seats[caller]
                    begin_bind(seat, 80, caller)
                    rht._lib.rht_go_on(seat._at, operations, rht._Reply())
                with mock.patch.object(rht, "_OPERATIONS", 1):
                    ((port, owners),) = table.end().bindings
                self.assertEqual(port, Port(80))
                self.assertIn(owners, ([0], [1]))

    def test_a_refusal_leaves_the_seats_open(self):
        def broken_off(*_):
            raise KeyboardInterrupt

        with rht.Table(callers=3) as table:
            one, two, three = table.seats
            one.bind(80, 100)
            two.close()
            with mock.patch.object(rht._lib, "rht_close_all", return_value=rht._NO_MEMORY):
                self.assertRaises(rht.NoMemory, table.end)
            self.assert_open(one, three)
            with mock.patch.object(rht._lib, "rht_close_all", return_value=99):
                self.assertRaises(rht.Misfit, table.end)
            self.assert_open(one, three)
            with mock.patch.object(rht._lib, "rht_close_all", broken_off):
                self.assertRaises(KeyboardInterrupt, table.end)
            self.assert_open(one, three)
            begin_bind(one, 81, 101)
            with mock.patch.object(rht, "_OPERATIONS", 1), mock.patch("rht.time.sleep", side_effect=KeyboardInterrupt):
                self.assertRaises(KeyboardInterrupt, table.end)
            self.assert_open(one, three)
            self.assertEqual(table.end().bindings, [(Port(80), [100]), (Port(81), [101])])

    def test_an_exception_between_two_moves_leaves_the_seats_open(self):
        with rht.Table(callers=3) as table:
            table.seats[0].bind(80, 100)
            for name in ("memmove", "memset"):
                real, made = getattr(ctypes, name), []
                for last in range(3):

                    def breaking(*args):
                        made.append(args)
                        if len(made) == last + 1:
                            raise KeyboardInterrupt
                        return real(*args)

                    made.clear()
                    with mock.patch.object(ctypes, name, breaking):
                        self.assertRaises(KeyboardInterrupt, table.end)
                    self.assert_open(*table.seats)
            self.assertEqual(table.end().bindings, [(Port(80), [100])])

    def test_seats_of_two_tables_are_refused(self):
        with rht.Table(callers=2) as one, rht.Table() as two:
            seats = one.seats + two.seats
            seats[0].bind(80, 100)
            seats[2].bind(80, 100)
            for order in (seats, seats[::-1], seats[::2] + seats[1:2]):
                with mock.patch.object(one, "_seats", order):
                    self.assertRaises(rht.TwoTables, one.end)
                self.assert_open(*seats)
            self.assertEqual(one.end().bindings, [(Port(80), [100])])
            self.assertEqual(two.end().bindings, [(Port(80), [100])])

    def test_a_table_has_no_other_seats(self):
        one, two = rht.Table(), rht.Table()
        with self.assertRaises(AttributeError):
            one.seats = two.seats
        with self.assertRaises(TypeError):
            one.seats[0] = two.seats[0]


class Closes(unittest.TestCase):
    """Seats that close one by one, in tables of three nodes, with nodes that wait for a tidying or without."""

    def seats(self):
        return rht.Table(callers=2, nodes=3).seats

    def take_out(self, seat, number):
        """Binds a port, and takes it out again. Its node waits for a tidying."""
        self.assertEqual(seat.bind(number, 9), Bound(False))
        self.assertEqual(seat.release(number, 9), Released(False))

    def room(self, seat):
        """How many ports can be bound, one after another."""
        self.assertEqual(seat.tidy(), Clear(0))
        number = 0
        while seat.bind(1000 + number, 1) != NoNode():
            number += 1
        return number

    def test_the_library_refuses_to_close_while_a_node_waits(self):
        seat, other = self.seats()
        self.take_out(seat, 80)
        for _ in range(2):
            self.assertEqual(rht._lib.rht_close(seat._at), rht._WAITING)
        self.assertEqual(seat.tidy(), Clear(1))
        self.assertEqual(rht._lib.rht_close(seat._at), rht._CLOSED)
        self.assertEqual(self.room(other), 3)

    def test_nodes_come_back_by_a_close(self):
        for close in (rht.Seat.close, rht.Seat.__exit__, rht.Seat.__del__):
            seat, other = self.seats()
            self.take_out(seat, 80)
            self.take_out(seat, 81)
            close(seat)
            self.assertRaises(rht.SeatClosed, seat.count)
            self.assertEqual((seat.given_up, self.room(other)), (0, 3))

    def test_nodes_that_wait_for_a_call_are_given_up(self):
        for close in (rht.Seat.close, rht.Seat.__exit__, rht.Seat.__del__):
            seat, other = self.seats()
            self.take_out(seat, 80)
            begin(other, "rht_all_begin", rht._Port(80, 0))
            self.assertIsInstance(seat.tidy(), Pending)
            self.take_out(seat, 81)
            with mock.patch.object(rht.time, "sleep") as yields:
                close(seat)
            self.assertEqual(yields.call_args_list, [mock.call(0)] * rht._TIDIES)
            self.assertRaises(rht.SeatClosed, seat.count)
            self.assertEqual(seat.given_up, 0 if close is rht.Seat.__del__ else 2)
            self.assertEqual(self.room(other), 1)

    def test_a_call_that_ends_meanwhile_lets_the_nodes_come_back(self):
        seat, other = self.seats()
        begin(other, "rht_all_begin", rht._Port(80, 0))
        self.take_out(seat, 80)
        with mock.patch.object(rht.time, "sleep", lambda _: other.find(80)):
            seat.close()
        self.assertEqual((seat.given_up, self.room(other)), (0, 3))

    def test_a_with_closes_its_seat(self):
        seat, other = self.seats()
        with self.assertRaises(KeyError), seat as same:
            self.assertIs(same, seat)
            self.take_out(seat, 80)
            raise KeyError
        self.assertRaises(rht.SeatClosed, seat.count)
        self.assertEqual(self.room(other), 3)

    def test_a_call_that_was_broken_off_is_finished_first(self):
        seat, other = self.seats()
        self.take_out(seat, 80)
        begin_bind(seat, 81, 7)
        begin(other, "rht_all_begin", rht._Port(80, 0))
        seat.close()
        self.assertEqual((seat.given_up, other.find(81), self.room(other)), (1, 7, 1))

    def test_a_table_sums_up_what_its_seats_gave_up(self):
        with rht.Table(callers=3, nodes=6) as table:
            one, two, three = table.seats
            self.assertEqual(table.given_up, 0)
            begin(three, "rht_all_begin", rht._Port(80, 0))
            for seat, count in ((one, 1), (two, 2)):
                for number in range(count):
                    self.take_out(seat, number)
        self.assertEqual([seat.given_up for seat in table.seats], [1, 2, 0])
        self.assertEqual(table.given_up, 3)

    def test_an_unknown_code_is_told(self):
        for wrong in ("rht_close", "rht_close_now"):
            with rht.Table() as table:
                codes = {"rht_close": rht._WAITING, "rht_tidy": rht._PENDING, "rht_close_now": rht._CLOSED, wrong: 99}
                functions = {name: mock.Mock(return_value=code) for name, code in codes.items()}
                with mock.patch.multiple(rht._lib, **functions), self.assertRaises(rht.Misfit) as raised:
                    table.seats[0].close()
                self.assertEqual(raised.exception.code, 99)


class Seeds(unittest.TestCase):
    """The seed with which a table is opened."""

    def seed(self, **numbers):
        with rht.Table(**numbers) as table:
            return table.config.seed

    def test_each_table_has_one_of_its_own(self):
        # Of 8 random seeds two are alike once in 150 million runs.
        self.assertEqual(len({self.seed() for _ in range(8)}), 8)

    def test_it_has_four_bytes_of_the_system(self):
        for drawn, seed in ((b"\1\2\3\4", 0x04030201), (b"\0\0\0\0", 0), (b"\xff\xff\xff\xff", 4294967295)):
            with mock.patch.object(rht.os, "urandom", return_value=drawn) as urandom:
                self.assertEqual(self.seed(), seed)
            urandom.assert_called_once_with(4)

    def test_one_that_is_given_stays(self):
        with mock.patch.object(rht.os, "urandom") as urandom:
            for seed in (0, 1, 4294967295):
                self.assertEqual(self.seed(seed=seed), seed)
        urandom.assert_not_called()

    def test_without_one_no_table_is_opened(self):
        for error in (NotImplementedError, OSError):
            with mock.patch.object(rht.os, "urandom", side_effect=error):
                with mock.patch.object(rht._lib, "rht_open") as opened:
                    self.assertRaises(rht.NoSeed, rht.Table)
                opened.assert_not_called()
                self.assertEqual(self.seed(seed=7), 7)


class WrongUses(unittest.TestCase):
    """What a program should not do raises, and leaves the table as it was."""

    def test_configs_are_refused(self):
        wrong = [
            {"callers": 0}, {"callers": 17}, {"callers": -1}, {"callers": 1 << 32}, {"nodes": 0}, {"nodes": 65537},
            {"pages": 3}, {"pages": 4097}, {"hint": 65537}, {"min": 65537}, {"max": 3}, {"max": 131073},
            {"min": 16, "max": 8}, {"rewalks": 256}, {"seed": -1}, {"pages": 4, "min": 512},
        ]
        for numbers in wrong:
            with self.subTest(numbers), self.assertRaises(rht.BadConfig):
                rht.Table(**numbers)
        self.assertRaises(TypeError, rht.Table, nodes=1.5)
        self.assertRaises(TypeError, rht.Table, noodles=1)

    def test_configs_at_their_limits_are_opened(self):
        most = {"nodes": 65536, "pages": 4096, "callers": 16, "hint": 65536, "min": 65536, "seed": 4294967295}
        with rht.Table(max=131072, rewalks=255, shrink=True, **most) as table:
            self.assertEqual((table.config.max, table.config.shrink, len(table.seats)), (131072, True, 16))
        with rht.Table(nodes=1, pages=4, min=0, max=7, seed=0, rewalks=0) as table:
            self.assertEqual((table.config.min, table.config.max, table.config.listed), (4, 4, False))

    def test_numbers_out_of_range_are_refused(self):
        with rht.Table() as table:
            (seat,) = table.seats
            for port in (-1, 1 << 32, Port(0, -1), Port(0, 1 << 16), Port(1 << 32, 0), (1, 2, 3)):
                with self.subTest(port=port), self.assertRaises(ValueError):
                    seat.find(port)
            for owner in (-1, 1 << 32):
                self.assertRaises(ValueError, seat.bind, 1, owner)
                self.assertRaises(ValueError, seat.release, 1, owner)
                self.assertRaises(ValueError, seat.rebind, 1, 1, owner)
                self.assertRaises(ValueError, seat.walk, None, owner)
            self.assertRaises(ValueError, seat.walk, Cursor(-1, 0))
            self.assertRaises(ValueError, seat.walk, Cursor(0, 1 << 32))
            for port in ("80", 80.0, None, [80, 0], ("80", 0)):
                with self.subTest(port=port), self.assertRaises(TypeError):
                    seat.find(port)
            self.assertEqual(seat.count(), 0)

    def test_a_closed_seat_stays_closed(self):
        table = rht.Table(callers=2)
        one, two = table.seats
        one.close()
        one.close()
        calls = [
            lambda: one.find(1), lambda: one.bind(1, 1), lambda: one.release(1, 1), lambda: one.rebind(1, 1, 1),
            lambda: one.all(1), one.walk, one.pairs, one.count, one.tidy, one.work,
        ]
        for call in calls:
            self.assertRaises(rht.SeatClosed, call)
        self.assertTrue(two.bind(1, 1))
        table.close()
        self.assertRaises(rht.SeatClosed, two.count)
        table.close()

    def test_a_seat_is_not_copied(self):
        with rht.Table() as table:
            (seat,) = table.seats
            self.assertRaises(TypeError, copy.copy, seat)
            self.assertRaises(TypeError, copy.deepcopy, seat)
            self.assertRaises(TypeError, pickle.dumps, seat)
            self.assertRaises(TypeError, pickle.dumps, table)

    def test_seats_close_behind_an_exception(self):
        with self.assertRaises(KeyError):
            with rht.Table(callers=3) as table:
                raise KeyError
        for seat in table.seats:
            self.assertRaises(rht.SeatClosed, seat.count)

    def test_a_call_that_is_broken_off_is_finished(self):
        with rht.Table(callers=2) as table:
            seat, other = table.seats
            left_off = mock.patch.multiple(rht, _ROUNDS=0, _OPERATIONS=1)
            with left_off, mock.patch("rht.time.sleep", side_effect=KeyboardInterrupt):
                self.assertRaises(KeyboardInterrupt, seat.bind, 80, 100)
            self.assertEqual(seat.find(80), 100)
            begin_bind(seat, 81, 101)
            self.assertEqual(seat.bind(82, 102), Bound(False))
            self.assertEqual(seat.count(), 3)
            begin_bind(seat, 83, 103)
            seat.close()
            self.assertEqual(other.find(83), 103)

    def test_a_seat_that_nobody_has_is_closed(self):
        seats = list(rht.Table(callers=2).seats)
        at = seats[0]._handle
        begin_bind(seats[1], 80, 100)
        del seats[0]
        self.assertFalse(at.in_use)
        at = seats[0]._handle
        del seats[0]
        self.assertTrue(at.in_use, "a call of it is in progress")
        rht._lib.rht_go_on(at, 1 << 20, rht._Reply())
        self.assertEqual(rht._lib.rht_close(at), rht._CLOSED)

    def test_an_unknown_code_is_told(self):
        with rht.Table() as table:
            (seat,) = table.seats
            for name, call in [
                ("rht_find", lambda: seat.find(1)), ("rht_bind_in", lambda: seat.bind(1, 1)),
                ("rht_bind_once_in", lambda: seat.bind(1, 1, once=True)),
                ("rht_release_in", lambda: seat.release(1, 1)),
                ("rht_all_begin", lambda: seat.all(1)), ("rht_walk", seat.walk), ("rht_tidy", seat.tidy),
                ("rht_count", seat.count), ("rht_close", seat.close), ("rht_open", rht.Table),
            ]:
                with mock.patch.object(rht._lib, name, return_value=99), self.assertRaises(rht.Misfit) as raised:
                    call()
                self.assertEqual(raised.exception.code, 99)


class Threads(unittest.TestCase):
    """Threads that share a table, and one seat in two of them."""

    def run_all(self, table, run):
        """Runs the same with each seat in a thread of its own, and raises what one raises."""
        errors = []

        def guarded(seat):
            try:
                run(seat)
            except BaseException as error:
                errors.append(error)

        threads = [threading.Thread(target=guarded, args=(seat,)) for seat in table.seats]
        for thread in threads:
            thread.start()
        for thread in threads:
            thread.join()
        if errors:
            raise errors[0]

    def bind(self, seat, port, owner):
        """Binds a free port, whatever has to be done before."""
        while True:
            reply = seat.bind(port, owner)
            if isinstance(reply, NoNode):
                seat.tidy()
            elif isinstance(reply, (Busy, NoTable)) or reply == Bound(True):
                while seat.work() == Moved(again=True):
                    pass
            if reply:
                return
            self.assertIsInstance(reply, (NoNode, Busy, NoTable))

    def test_ranges_of_their_own(self):
        def run(seat):
            mine = [Port(1000 * seat.caller + number, 5) for number in range(100)]
            for _ in range(2):
                for port in mine:
                    self.bind(seat, port, seat.caller)
                    self.assertEqual(seat.find(port), seat.caller)
                self.assertEqual(seat.find(1), 7)
                for port in mine[10:]:
                    self.assertEqual(seat.find(port), seat.caller)
                    self.assertTrue(seat.release(port, seat.caller))
                for port in mine[:10]:
                    self.assertTrue(seat.release(port, seat.caller))
                seat.tidy()
            self.bind(seat, mine[0], 9)

        with rht.Table(callers=4, hint=3, shrink=True) as table:
            table.seats[0].bind(1, 7)
            self.run_all(table, run)
            left = [Pair(Port(1), 7)] + [Pair(Port(1000 * caller, 5), 9) for caller in range(4)]
            self.assertEqual(sorted(table.seats[2].pairs()), sorted(left))
            self.assertEqual(table.seats[1].count(), 5)
            self.assertEqual(table.end().bindings, [(port, [owner]) for port, owner in left])

    def test_each_rebind_succeeds_once(self):
        made = []

        def run(seat):
            # A rebind that fails has met one that succeeded since the look-up, so 300 of them fail at most.
            for _ in range(601):
                owner = seat.find(1)
                if owner == 300:
                    return
                if seat.rebind(1, owner, owner + 1):
                    made.append(owner)
                seat.tidy()
            self.fail("it goes on and on")

        with rht.Table(callers=4) as table:
            table.seats[0].bind(1, 0)
            self.run_all(table, run)
            self.assertEqual(sorted(made), list(range(300)))

    def test_a_second_thread_is_refused(self):
        yields, go_on = threading.Event(), threading.Event()

        def yielding(_):
            yields.set()
            go_on.wait(10)

        with rht.Table(callers=2) as table:
            seat, other = table.seats
            replies = []
            left_off = mock.patch.multiple(rht, _ROUNDS=0, _OPERATIONS=1)
            with left_off, mock.patch("rht.time.sleep", yielding):
                thread = threading.Thread(target=lambda: replies.append(seat.bind(80, 100)))
                thread.start()
                self.assertTrue(yields.wait(10))
                self.assertRaises(rht.SeatInUse, seat.find, 80)
                self.assertRaises(rht.SeatInUse, seat.close)
                self.assertIsNone(other.find(81))
                self.assertRaises(rht.SeatInUse, table.close)
                self.assertRaises(rht.SeatClosed, other.count)
                go_on.set()
                thread.join()
            self.assertEqual(replies, [Bound(False)])
            self.assertEqual(seat.find(80), 100)

    def test_threads_are_never_in_one_seat_at_once(self):
        inside, met, refused = [], [], []

        def run(seat):
            for _ in range(2000):
                hold = rht._Hold()
                try:
                    with hold.lock:
                        seat._hold(hold)
                        inside.append(hold)
                        time.sleep(0)
                        met.extend(other for other in inside if other is not hold)
                        inside.remove(hold)
                except rht.SeatInUse:
                    refused.append(hold)

        with rht.Table() as table:
            self.run_all(mock.Mock(seats=table.seats * 4), run)
            self.assertEqual((inside, met), ([], []))
            self.assertGreater(len(refused), 0)
            self.assertEqual(table.seats[0].count(), 0)

    def test_one_of_several_threads_ends_a_table(self):
        ended = []

        def run(table):
            with contextlib.suppress(rht.SeatInUse, rht.SeatClosed):
                ended.append(table.end())

        for number in range(100):
            table = rht.Table(callers=2)
            table.seats[1].bind(number, 7)
            self.run_all(mock.Mock(seats=[table] * 4), run)
            self.assertEqual(ended.pop().bindings, [(Port(number), [7])])
            self.assertEqual(ended, [])

    def test_messages_pass_through_a_bind_and_a_find(self):
        texts, stale = (ctypes.c_uint32 * 5000)(), []

        def text(message):
            return message ^ 0xDEADBEEF

        def run(seat):
            for message in range(len(texts)):
                port = message % 64
                if seat.caller == 0:
                    texts[message] = text(message)
                    while not seat.bind(port, message):
                        time.sleep(0)
                else:
                    while seat.find(port) != message:
                        time.sleep(0)
                    stale.extend({texts[message]} - {text(message)})
                    seat.release(port, message)
                    seat.tidy()

        with rht.Table(callers=2) as table:
            self.run_all(table, run)
            self.assertEqual(stale, [])

    def test_a_call_within_a_call_is_refused(self):
        with rht.Table() as table:
            (seat,) = table.seats
            left_off = mock.patch.multiple(rht, _ROUNDS=0, _OPERATIONS=1)
            with left_off, mock.patch("rht.time.sleep", lambda _: seat.count()):
                self.assertRaises(rht.SeatInUse, seat.bind, 80, 100)
            self.assertEqual(seat.count(), 1)


@unittest.skipIf(sys.version_info < (3, 10), "a signal can come between the body of a with and its end")
class Signals(unittest.TestCase):
    """Real signals break calls off, at whatever step they come. No seat stays in use."""

    def setUp(self):
        def interrupt(*_):
            raise KeyboardInterrupt

        self.addCleanup(signal.signal, signal.SIGALRM, signal.signal(signal.SIGALRM, interrupt))
        self.addCleanup(signal.setitimer, signal.ITIMER_REAL, 0)

    def broken_off(self, seconds, calls):
        """Makes these calls until a signal breaks one off after so many seconds, or comes after the last one."""
        try:
            signal.setitimer(signal.ITIMER_REAL, seconds)
            for call in calls:
                call()
            # A signal that comes just before a sleep doesn't end it, so none is long.
            for _ in range(10000):
                time.sleep(0.001)
        except KeyboardInterrupt:
            return
        self.fail("no signal came")

    def assert_free(self, table):
        """No seat of the table is in use, be it open or closed."""
        for seat in table.seats:
            with contextlib.suppress(rht.SeatClosed):
                seat.count()
        table.close()

    def calls(self, seat):
        """Each call, so often that a signal comes before the last one."""
        for _ in range(1000):
            yield from (
                lambda: seat.find(80), lambda: seat.bind(81, 7), lambda: seat.all(81), lambda: seat.rebind(81, 7, 7),
                lambda: seat.release(81, 7), seat.tidy, seat.walk, seat.pairs, seat.count, seat.work,
            )

    def test_no_call_leaves_its_seat_in_use(self):
        for number in range(500):
            table = rht.Table(nodes=16, pages=4, hint=3)
            self.broken_off(random.Random(number).uniform(20e-6, 400e-6), self.calls(table.seats[0]))
            self.assert_free(table)

    def test_no_closing_leaves_a_seat_in_use(self):
        closings = {
            "Seat.close": lambda table: [seat.close for seat in table.seats],
            "Table.close": lambda table: [table.close],
            "Table.end": lambda table: [table.end],
            "Table.__exit__": lambda table: [table.__exit__],
        }
        for number in range(500):
            name, close = list(closings.items())[number % len(closings)]
            tables = [rht.Table(callers=2, nodes=16, pages=4, hint=3) for _ in range(20)]
            calls = [call for table in tables for call in close(table)]
            with self.subTest(name):
                self.broken_off(random.Random(number).uniform(10e-6, 200e-6), calls)
                for table in tables:
                    self.assert_free(table)

    def test_another_thread_is_refused_still(self):
        with rht.Table() as table:
            (seat,) = table.seats
            for number in range(20):
                self.broken_off(random.Random(number).uniform(20e-6, 400e-6), self.calls(seat))
            raised = []

            def run():
                try:
                    seat.count()
                except rht.SeatInUse as error:
                    raised.append(error)

            with in_use(seat):
                thread = threading.Thread(target=run)
                thread.start()
                thread.join(10)
                self.assertEqual((len(raised), thread.is_alive()), (1, False))
            self.assertIn(seat.count(), (0, 1))


@unittest.skipUnless(hasattr(os, "fork"), "no fork here")
class Forks(unittest.TestCase):
    """Behind a fork the child's seats are dead, and the parent's go on."""

    def in_child(self, run):
        """Runs in a fork, and says whether it came to an end there."""
        child = os.fork()
        if child == 0:
            status = 1
            try:
                run()
                status = 0
            finally:
                os._exit(status)
        return os.waitpid(child, 0)[1] == 0

    def test_seats_are_dead_in_the_child(self):
        with rht.Table(callers=2) as table:
            seat, other = table.seats
            seat.bind(80, 100)
            begin_bind(other, 81, 101)

            def run():
                self.assertRaises(rht.Forked, seat.find, 80)
                self.assertRaises(rht.Forked, seat.pairs)
                self.assertRaises(rht.Forked, other.work)
                self.assertRaises(rht.Forked, table.end)
                seat.close()
                seat.__del__()
                table.close()
                self.assertTrue(seat._handle.in_use)

            self.assertTrue(self.in_child(run))
            self.assertEqual(seat.find(80), 100)
            self.assertEqual(other.find(81), 101)
            self.assertEqual(table.end().bindings, [(Port(80), [100]), (Port(81), [101])])

    def test_a_seat_in_use_is_dead_too(self):
        with rht.Table() as table:
            (seat,) = table.seats
            with in_use(seat):
                self.assertTrue(self.in_child(lambda: self.assertRaises(rht.Forked, seat.count)))
                self.assertTrue(self.in_child(table.close))

    def test_the_child_opens_a_table_of_its_own(self):
        def run():
            with rht.Table() as table:
                self.assertTrue(table.seats[0].bind(80, 100))

        self.assertTrue(self.in_child(run))


class Header(unittest.TestCase):
    """The module against embed/include/rht.h."""

    INCLUDE = os.path.join(HERE, os.pardir, "include")
    STRUCTS = {
        "rht_port": rht._Port, "rht_pair": rht._Pair, "rht_cursor": rht._Cursor, "rht_config": rht._Config,
        "rht_reply": rht._Reply, "rht_closed": rht._Closed, "rht_handle": rht._Handle,
    }

    def text(self):
        with open(os.path.join(self.INCLUDE, "rht.h")) as file:
            return file.read()

    def test_codes(self):
        codes = dict(re.findall(r"^ *RHT_(\w+) = (\d+)", self.text(), re.M))
        self.assertEqual(len(codes), 39)
        elsewhere = (
            "NO_CALL", "NO_STEPS", "BAD_COUNT", "STILL_OPEN", "READY", "NO_SEED", "HELD", "NOT_HELD", "TIDY_FIRST",
        )
        for name, code in codes.items():
            here = getattr(rht, "_" + name, None)
            if name in elsewhere:
                self.assertIsNone(here, "%s can't come here" % name)
            else:
                self.assertEqual(here, int(code), name)

    def in_c(self, kind):
        """The C type of one of ctypes, without spaces."""
        if kind is None:
            return "void"
        if hasattr(kind, "contents"):
            return self.in_c(kind._type_) + "*"
        plain = {ctypes.c_uint32: "uint32_t", ctypes.c_size_t: "size_t"}
        return plain.get(kind) or next(name for name, struct in self.STRUCTS.items() if struct is kind)

    def test_functions(self):
        there = {}
        for result, name, arguments in re.findall(r"^(\w+) (rht_\w+)\(([^)]*)\);", self.text(), re.M):
            kinds = [re.sub(r"\w+$", "", argument).replace(" ", "") for argument in arguments.split(",")]
            there[name] = (result, kinds)
        here = {
            name: (self.in_c(result), [self.in_c(kind) for kind in arguments])
            for name, (result, arguments) in rht._FUNCTIONS.items()
        }
        self.assertEqual(len(there), 21)
        self.assertEqual(there, here)

    def test_spare_words(self):
        ones, handle = rht._SPARE(*[1] * 8), (rht._Handle * 1)()
        config = rht._config({"seed": 1}, False, False, False)
        for word in range(8):
            config.spare[word] = 1
            self.assertEqual(rht._lib.rht_open(config, handle, 1), rht._BAD_CONFIG)
            config.spare[word] = 0
        self.assertEqual(rht._lib.rht_open(config, handle, 1), rht._OPENED)
        reply, closed = rht._Reply(spare=ones), rht._Closed(spare=ones)
        self.assertEqual(rht._lib.rht_count(handle, reply), rht._COUNTED)
        self.assertEqual(rht._lib.rht_close_all(handle, 1, rht._Pair(), 1, closed), rht._ENDED)
        self.assertEqual(list(reply.spare) + list(closed.spare), [0] * 16)

    @unittest.skipUnless(shutil.which("cc"), "no C compiler here")
    def test_layout(self):
        asked, here = [], []
        for name, struct in self.STRUCTS.items():
            asked.append("sizeof(%s)" % name)
            here.append(ctypes.sizeof(struct))
            for field, kind in struct._fields_:
                asked += ["offsetof(%s, %s)" % (name, field), "sizeof(((%s *)0)->%s)" % (name, field)]
                here += [getattr(struct, field).offset, ctypes.sizeof(kind)]
        lines = "\n".join('    printf("%%zu\\n", %s);' % what for what in asked)
        with tempfile.TemporaryDirectory() as folder:
            source, program = os.path.join(folder, "layout.c"), os.path.join(folder, "layout")
            with open(source, "w") as file:
                file.write('#include <stdio.h>\n#include "rht.h"\nint main(void)\n{\n%s\n    return 0;\n}\n' % lines)
            subprocess.run(["cc", "-I", self.INCLUDE, "-o", program, source], check=True)
            there = subprocess.run([program], check=True, stdout=subprocess.PIPE).stdout
        self.assertEqual([int(number) for number in there.split()], here)

    def test_a_folder_without_the_library_is_told(self):
        with tempfile.TemporaryDirectory() as folder:
            env = dict(os.environ, RHT_LIB=folder)
            run = subprocess.run([sys.executable, "-c", "import rht"], cwd=HERE, env=env, stderr=subprocess.PIPE)
        self.assertEqual(run.returncode, 1)
        self.assertIn(b"ImportError: rht: run embed/build, or set RHT_LIB", run.stderr)


class Example(unittest.TestCase):
    """The example beside this file."""

    def test_it_runs(self):
        run = subprocess.run([sys.executable, os.path.join(HERE, "example.py")], check=True, stdout=subprocess.PIPE)
        said = re.fullmatch(r"the threads bound \[(\d+), (\d+), (\d+), (\d+)\] of 3000 ports\n", run.stdout.decode())
        self.assertEqual(sum(map(int, said.groups())), 3000)


if __name__ == "__main__":
    unittest.main()
