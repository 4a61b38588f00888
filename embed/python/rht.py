"""A table of ports that threads share: the resizable hash table of the library rht, from Python.

A port is a number in a net, and has an owner, or in a table of lists any number of them. Up to 16 threads bind, look
up, list, release and rebind ports, walk the table, and resize it meanwhile. Each has a seat of its own.

    import rht

    with rht.Table(callers=2) as table:
        seat = table.seats[0]
        seat.bind(80, owner=100)    # Bound(kick=False)
        seat.find(80)               # 100
        seat.find(rht.Port(80, 1))  # None

What most calls answer is an object: Bound, Exists, NoNode and so on, as each call says. A reply is true where the call
did what it was asked for: Bound, Released, Rebound, Walked, Moved and Clear are. All others are false. What isn't an
answer of the table is raised: a ValueError or TypeError of a wrong argument, or an RhtError. An owner may be 0, so
what find answers is compared with None.

What a program does beside its calls:

- A reply with a kick says that the table is due to be resized: some seat makes work(), again while it answers
  Moved(again=True).
- A bind that answers Busy or NoTable is made again behind a work().
- A release and a rebind take a node out. It is free again behind a tidy() of the same seat.
- A seat that closes while nodes wait for its tidying loses them for all others. So a close tidies some times first.
  What is left then is given up: Seat.given_up and Table.given_up are the numbers of these nodes.
- To have what is bound at the end, close all seats by Table.end().
- A call that an exception broke off may hold a lock, be the one at work, and keep nodes from coming back. Make a
  further call of that seat, which finishes it, or close the seat.

What is proved, and what isn't: the calls of the library are proved, and docs/EMBEDDING.md tells what of them. This
module isn't, and neither is that it fits the library. Tests compare it with the header rht.h. Calls of one seat are
made in their order. Of the seats that Table.end() closes one run is proved to exist: it has the calls of each of them,
with their replies, and ends with what was bound. That its order is the order of time isn't proved. That a call which
waits comes to an end is not claimed, and neither is any speed.

Memory order: a find that answers an owner synchronizes with the bind or rebind that bound it. What the binding thread
wrote before that call is visible after the find, also in memory that Python's threads share with C. So it is with all,
walk, pairs, and a bind that answers Exists. A call that begins after another one has returned comes after it. Proved of
this is that each call makes its operations on single words of the table, one after another, and that its answer is
right in one order of all operations on these words. No clause speaks of other memory or of time. The rest follows if
the operations are sequentially consistent, as the toolchain's kit says of its words; that is trusted. It is tested in
C, in Rust and here.

The seed of a table's hash is drawn from the system, by os.urandom, where the program gives none. Whoever knows it can
choose ports that all lie in one bucket, and Table.config has it.

What the library asks of a program is kept here at run time:

- A seat is in one call at a time. The interpreter's lock is let go during a call, so a seat has a lock of its own. It
  isn't waited for: a second thread gets SeatInUse. An exception that breaks a call off leaves no seat in use, also that
  of a signal, as KeyboardInterrupt. (Before Python 3.10 it may, because a signal can come between the body of a `with`
  and its end there.)
- A seat is never copied or pickled; that raises TypeError.
- Behind a fork the seats are dead in the child: calls raise Forked, and closing does nothing.
- Numbers that are out of range raise ValueError before the library sees them.
- The seats that a table closes together are its own: `seats` can't be given another value.

Python 3.8 or newer is needed, with 64-bit pointers. The shared library librht.so lies in ../out/lib, where embed/build
puts it, or in the folder that the variable RHT_LIB names.
"""

import ctypes
import functools
import operator
import os
import threading
import time
from dataclasses import dataclass, fields
from typing import List, NamedTuple, Optional, Tuple

__all__ = [
    "Absent", "Again", "BadConfig", "Bound", "Busy", "Clear", "Config", "Cursor", "Elsewhere", "Ended", "Exists",
    "Forked", "Idle", "Misfit", "Moved", "NoMemory", "NoNode", "NoSeed", "NoTable", "NotWhole", "Pair", "Pending",
    "Port", "Rebound", "Released", "Reply", "RhtError", "Seat", "SeatClosed", "SeatInUse", "Table", "TooBig",
    "TwoTables", "Walked",
]

# ---- what is said


class Port(NamedTuple):
    """A port: a number of 32 bits in a net of 16 bits. Where a call takes a port, a number alone is one of net 0."""

    number: int
    net: int = 0


class Pair(NamedTuple):
    """A port, and its first owner."""

    port: Port
    owner: int


class Cursor(NamedTuple):
    """Where a walk goes on. Any numbers may be written here: a cursor that doesn't fit is answered Again."""

    serial: int
    bucket: int


@dataclass(frozen=True)
class Config:
    """What a table was opened with, its sizes rounded. Table says what each number means."""

    nodes: int
    pages: int
    callers: int
    hint: int
    min: int
    max: int
    seed: int
    rewalks: int
    listed: bool
    low: bool
    shrink: bool


@dataclass(frozen=True)
class Reply:
    """What a call answers. It is true where the call did what it was asked for."""

    def __bool__(self) -> bool:
        return isinstance(self, (Bound, Released, Rebound, Walked, Moved, Clear))


@dataclass(frozen=True)
class Bound(Reply):
    """The port is bound to the owner now. With kick the table may want to be resized: make work()."""

    kick: bool


@dataclass(frozen=True)
class Exists(Reply):
    """The port was bound already, to this owner. It comes only in tables of one owner for each port."""

    owner: int


@dataclass(frozen=True)
class TooBig(Reply):
    """Nothing was bound: the table was found to hold count ports, which is all that it may hold or more."""

    count: int


@dataclass(frozen=True)
class Busy(Reply):
    """Nothing was bound: a resize from slot table to slot last has to end first. Work, and bind again."""

    table: int
    last: int


@dataclass(frozen=True)
class NoTable(Reply):
    """A table of size buckets, or a page of one, was wanted and couldn't be had. Nothing was bound, or moved.

    Behind a bind make work(), and bind again. Where it stays so, the pages are too few, or a call in progress holds
    back tables that were left. A bind wants a table where more ports are bound than there are buckets, or 16 in the
    port's bucket. It wants a page where its bucket's is missing. Calls that want neither go on as before.

    Behind a work the table goes on as it is. Work again at the next kick."""

    size: int


@dataclass(frozen=True)
class NoNode(Reply):
    """Nothing was bound: each node was found taken at some moment. Tidy, by each seat that took nodes out, and make
    the call again."""


@dataclass(frozen=True)
class Again(Reply):
    """A table in slot table is behind the one that was used, or is the one with which a walk has to begin. Nothing was
    bound or seen: bind again, or begin the walk anew."""

    table: int


@dataclass(frozen=True)
class Released(Reply):
    """One binding of the port to the owner was taken out. With kick the table may want to be resized: make
    work()."""

    kick: bool


@dataclass(frozen=True)
class Absent(Reply):
    """The port isn't bound to this owner."""


@dataclass(frozen=True)
class Rebound(Reply):
    """The new owner has the old one's place."""


@dataclass(frozen=True)
class Walked(Reply):
    """These pairs were seen. The walk goes on at next; where that is None it has come to the table's end."""

    pairs: List[Pair]
    next: Optional[Cursor]


@dataclass(frozen=True)
class Moved(Reply):
    """Entries were moved to a new table, or are to be. With again there is more to do."""

    again: bool


@dataclass(frozen=True)
class Idle(Reply):
    """Nothing was to be done."""


@dataclass(frozen=True)
class Elsewhere(Reply):
    """Another seat is at work, so nothing was done."""


@dataclass(frozen=True)
class Clear(Reply):
    """So many nodes that waited are free again."""

    returned: int


@dataclass(frozen=True)
class Pending(Reply):
    """The seat with the number caller is in a call still that it was in when nodes began to wait. So none is free
    again: tidy later. The number section changes when that call ends."""

    caller: int
    section: int


@dataclass(frozen=True)
class Ended:
    """What a table was when it was closed.

    bindings has each port that was bound, with all its owners, the first owner first. The ports rise, by their nets
    first and then by their numbers. (Python sorts a Port by its number first.) size is that of the current table, in
    buckets."""

    bindings: List[Tuple[Port, List[int]]]
    size: int


# ---- what is raised


class RhtError(Exception):
    """What a call raises that isn't an answer of the table. But for NotWhole and Misfit nothing was done, and the table
    is as it was."""


class BadConfig(RhtError):
    """No table can be opened with these numbers: one isn't in its range, or they don't agree."""


class NoMemory(RhtError):
    """Memory has run out. No table was opened, or no seat was closed."""


class NoSeed(RhtError):
    """The system gives no random bytes for a seed, and the program gave none. No table was opened."""


class TwoTables(RhtError):
    """The seats to be closed together are of several tables. None was closed."""


class SeatClosed(RhtError):
    """The seat was closed."""


class SeatInUse(RhtError):
    """The seat is in a call, of another thread or of this one. It wasn't waited for."""


class Forked(RhtError):
    """The process is a fork of the one that opened the table, so its seats are dead."""


class NotWhole(RhtError):
    """No walk came to the table's end in so many tries: each time a table was behind the one that was walked. What is
    bound didn't change by it."""


class Misfit(RhtError):
    """The library answered with a code that the call doesn't have, so it doesn't fit this module. What the call did
    isn't known."""

    def __init__(self, code: int):
        super().__init__("librht.so and rht.py don't fit: a call came to code %d" % code)
        self.code = code


# ---- the header, written by hand after rht.h

_NOT_YET = 0
_BOUND = 1
_EXISTS = 2
_FOUND = 3
_MISSING = 4
_LISTED = 5
_RELEASED = 6
_ABSENT = 7
_REBOUND = 8
_TOO_BIG = 9
_AGAIN = 10
_BUSY = 11
_NO_TABLE = 12
_NO_NODE = 13
_PENDING = 14
_ELSEWHERE = 15
_WALKED = 16
_MOVED = 17
_IDLE = 18
_CLEAR = 19
_COUNTED = 20
_OPENED = 32
_CLOSED = 33
_ENDED = 34
_NOT_OPEN = 64
_IN_CALL = 65
_WAITING = 71
_BAD_CONFIG = 80
_NO_MEMORY = 83
_TWO_TABLES = 84

_U16 = ctypes.c_uint16
_U32 = ctypes.c_uint32
_U64 = ctypes.c_uint64
_BOOL = ctypes.c_bool

# Room for fields of later versions, all 0.
_SPARE = _U32 * 8


class _Port(ctypes.Structure):
    _fields_ = [("number", _U32), ("net", _U16)]


class _Pair(ctypes.Structure):
    _fields_ = [("port", _Port), ("owner", _U32)]


class _Cursor(ctypes.Structure):
    _fields_ = [("serial", _U64), ("bucket", _U32), ("more", _BOOL)]


class _Config(ctypes.Structure):
    _fields_ = [
        ("nodes", _U32), ("pages", _U32), ("callers", _U32), ("hint", _U32), ("min", _U32), ("max", _U32),
        ("seed", _U32), ("rewalks", _U32), ("listed", _BOOL), ("low", _BOOL), ("shrink", _BOOL), ("spare", _SPARE),
    ]


class _Reply(ctypes.Structure):
    _fields_ = [
        ("count", _U64), ("section", _U64), ("next", _Cursor), ("owner", _U32), ("len", _U32), ("table", _U32),
        ("last", _U32), ("size", _U32), ("returned", _U32), ("caller", _U32), ("kick", _BOOL), ("again", _BOOL),
        ("spare", _SPARE),
    ]


class _Closed(ctypes.Structure):
    _fields_ = [("len", _U64), ("keys", _U32), ("size", _U32), ("spare", _SPARE)]


class _Handle(ctypes.Structure):
    _fields_ = [("at", ctypes.c_void_p), ("in_use", _BOOL)]


# The sizes that the header gives, and the offset of each struct's last field.
_SIZES = [
    (_Port, 8, 4), (_Pair, 12, 8), (_Cursor, 16, 12), (_Config, 68, 36), (_Reply, 96, 64), (_Closed, 48, 16),
    (_Handle, 16, 8),
]

_AT = ctypes.POINTER(_Handle)
_SAYS = ctypes.POINTER(_Reply)
_FUNCTIONS = {
    "rht_config_plain": (None, [ctypes.POINTER(_Config)]),
    "rht_open": (_U32, [ctypes.POINTER(_Config), _AT, ctypes.c_size_t]),
    "rht_close": (_U32, [_AT]),
    "rht_close_now": (_U32, [_AT, ctypes.POINTER(_U32)]),
    "rht_close_all": (
        _U32, [_AT, ctypes.c_size_t, ctypes.POINTER(_Pair), ctypes.c_size_t, ctypes.POINTER(_Closed)],
    ),
    "rht_find": (_U32, [_AT, _Port, ctypes.POINTER(_U32)]),
    "rht_walk": (_U32, [_AT, _Cursor, _U32, _SAYS]),
    "rht_tidy": (_U32, [_AT, _SAYS]),
    "rht_count": (_U32, [_AT, _SAYS]),
    "rht_bind_begin": (_U32, [_AT, _Port, _U32, _SAYS]),
    "rht_bind_once_begin": (_U32, [_AT, _Port, _U32, _SAYS]),
    "rht_bind_in": (_U32, [_AT, _Port, _U32, _U32, _SAYS]),
    "rht_bind_once_in": (_U32, [_AT, _Port, _U32, _U32, _SAYS]),
    "rht_release_begin": (_U32, [_AT, _Port, _U32, _SAYS]),
    "rht_release_in": (_U32, [_AT, _Port, _U32, _U32, _SAYS]),
    "rht_rebind_begin": (_U32, [_AT, _Port, _U32, _U32, _SAYS]),
    "rht_all_begin": (_U32, [_AT, _Port, _SAYS]),
    "rht_work_begin": (_U32, [_AT, _SAYS]),
    "rht_go_on": (_U32, [_AT, _U32, _SAYS]),
    "rht_owners": (ctypes.c_size_t, [_AT, ctypes.c_size_t, ctypes.POINTER(_U32), ctypes.c_size_t]),
    "rht_pairs": (ctypes.c_size_t, [_AT, ctypes.c_size_t, ctypes.POINTER(_Pair), ctypes.c_size_t]),
}


def _loaded():
    """The library, once its structs were compared and its functions found."""
    for struct, size, last in _SIZES:
        field = struct._fields_[-1][0]
        if ctypes.sizeof(struct) != size or getattr(struct, field).offset != last:
            raise ImportError("rht: %s doesn't lie as in rht.h" % struct.__name__)
    beside = os.path.join(os.path.dirname(os.path.abspath(__file__)), os.pardir, "out", "lib")
    path = os.path.abspath(os.path.join(os.environ.get("RHT_LIB") or beside, "librht.so"))
    try:
        lib = ctypes.CDLL(path)
        for name, (result, arguments) in _FUNCTIONS.items():
            function = getattr(lib, name)
            function.restype = result
            function.argtypes = arguments
    except (OSError, AttributeError) as error:
        raise ImportError("rht: run embed/build, or set RHT_LIB to a folder with librht.so (%s)" % error) from error
    return lib


_lib = _loaded()

_REPLIES = {
    _BOUND: lambda reply: Bound(reply.kick),
    _EXISTS: lambda reply: Exists(reply.owner),
    _RELEASED: lambda reply: Released(reply.kick),
    _ABSENT: lambda reply: Absent(),
    _REBOUND: lambda reply: Rebound(),
    _TOO_BIG: lambda reply: TooBig(reply.count),
    _AGAIN: lambda reply: Again(reply.table),
    _BUSY: lambda reply: Busy(reply.table, reply.last),
    _NO_TABLE: lambda reply: NoTable(reply.size),
    _NO_NODE: lambda reply: NoNode(),
    _PENDING: lambda reply: Pending(reply.caller, reply.section),
    _ELSEWHERE: lambda reply: Elsewhere(),
    _MOVED: lambda reply: Moved(reply.again),
    _IDLE: lambda reply: Idle(),
    _CLEAR: lambda reply: Clear(reply.returned),
}

_OF_BIND = (_BOUND, _EXISTS, _TOO_BIG, _BUSY, _NO_TABLE, _NO_NODE)
_OF_RELEASE = (_RELEASED, _ABSENT)
_OF_REBIND = (_REBOUND, _ABSENT, _NO_NODE)
_OF_WORK = (_MOVED, _IDLE, _ELSEWHERE, _NO_TABLE)
_OF_TIDY = (_CLEAR, _PENDING)

# How many operations a waiting call makes between two times that it yields.
_OPERATIONS = 1024

# How often a bind or a release tries to lock a bucket before it leaves off, and goes on as the other waiting calls.
_ROUNDS = 64

# The limit of a piece, where a whole walk is made.
_PIECE = 256

# How often a seat that closes tidies before it gives up the nodes that wait.
_TIDIES = 64


def _told(code, reply, codes):
    """The reply that this code tells, which has to be one of these."""
    if code not in codes:
        raise Misfit(code)
    return _REPLIES[code](reply)


def _number(value, bits, what):
    """A number of so many bits. ctypes would cut a greater one off without a word."""
    value = operator.index(value)
    if not 0 <= value < 1 << bits:
        raise ValueError("%s has to be from 0 to %d, and is %d" % (what, (1 << bits) - 1, value))
    return value


def _port(port):
    """The struct of a port, or of a number alone."""
    number, net = port if isinstance(port, tuple) else (port, 0)
    return _Port(_number(number, 32, "a port's number"), _number(net, 16, "a port's net"))


def _close_in_any_case(
    at, lib=_lib, new_reply=_Reply, new_number=_U32, clock=time, tidies=_TIDIES, waiting=_WAITING, pending=_PENDING
):
    """Closes the handle at this place: the code, and how many nodes were given up. Nodes that wait are tidied some
    times, and then given up.

    A seat may be deleted while the interpreter ends, when the names of this module may be gone. So all of them that are
    used here are arguments."""
    given_up = new_number()
    code = lib.rht_close(at)
    for _ in range(tidies):
        if code != waiting:
            break
        if lib.rht_tidy(at, new_reply()) == pending:
            clock.sleep(0)
        code = lib.rht_close(at)
    if code == waiting:
        code = lib.rht_close_now(at, given_up)
    return code, given_up.value


class _Hold:
    """A call's hold on its seat, or on all seats of its table: a lock, and of each seat the hold after this one.

    A call takes the lock of its own hold, by a `with`. It never waits for that, because no other call takes this lock.
    Then it appends the hold to the chain of the seat's holds, if the lock of the last one isn't taken. This is one call
    of setdefault, which admits one of several threads, and shows the others whose hold is there. So a seat is in use
    exactly while the lock of its last hold is taken.

    The exception of a signal, as KeyboardInterrupt, may come between any two steps of Python. Before the hold is in the
    chain the seat isn't held. After that the end of the `with` releases the lock, which is one step, because it is code
    in C. A lock of the seat that is acquired before a `try` and released by its `finally` would have two gaps: between
    the acquisition and the `try`, and before the first step of the `finally`."""

    __slots__ = ("lock", "after")

    def __init__(self):
        self.lock = threading.Lock()
        self.after = {}


def _alone(method):
    """Lets one thread at a time into a method of a seat, and refuses any other."""

    @functools.wraps(method)
    def guarded(self, *args, **kwargs):
        hold = _Hold()
        with hold.lock:
            self._hold(hold)
            return method(self, *args, **kwargs)

    return guarded


# ---- seats and tables


class Seat:
    """A caller of a table. A table has its seats in `Table.seats`; a program makes none by itself.

    Calls: find, walk, tidy and count wait for nobody. bind, release, rebind, all, work and pairs may wait for another
    seat. They make some operations at a time and yield to other threads in between, so an exception as
    KeyboardInterrupt may break one off. Such a call is finished before the seat's next one, and its reply is lost.
    A waiting call ends only if the threads go on for whose seats it waits. bind and release go in one go first, by one
    call of the library. That has the reply, unless another seat holds the bucket's lock, or what is seldom has to be
    done; then they go on as the others.

    Each call raises SeatClosed, SeatInUse or Forked where it isn't made, and ValueError or TypeError for a wrong
    argument. Owners are numbers of 32 bits.

    With `with` a seat is closed at the end. A seat that nobody has any more is closed too, unless a call of it is in
    progress. caller is its number, and given_up how many nodes its close gave up.
    """

    def __init__(self, caller, handle):
        self.caller = caller
        self.given_up = 0
        self._handle = handle
        self._at = ctypes.pointer(handle)
        self._pid = os.getpid()
        self._last = _Hold()

    def __repr__(self):
        return "<rht.Seat %d>" % self.caller

    def __reduce_ex__(self, protocol):
        raise TypeError("a seat can't be copied or pickled")

    def __enter__(self):
        return self

    def __exit__(self, *_):
        self.close()

    def __del__(self, getpid=os.getpid, close=_close_in_any_case):
        if getpid() == self._pid:
            close(self._at)

    def _hold(self, hold):
        """Holds the seat by this hold, whose lock is taken, without waiting."""
        if os.getpid() != self._pid:
            raise Forked("the process that opened seat %d was %d" % (self.caller, self._pid))
        last = self._last
        while last is not hold:
            if last.lock.locked():
                raise SeatInUse("seat %d is in a call" % self.caller)
            last = last.after.setdefault(id(self), hold)
        self._last = hold

    def _made(self, function, *args):
        """The code of a call. One that an exception broke off before is finished first."""
        code = function(self._at, *args)
        if code == _IN_CALL:
            self._go_on(_Reply())
            code = function(self._at, *args)
        if code == _NOT_OPEN:
            raise SeatClosed("seat %d was closed" % self.caller)
        return code

    def _go_on(self, reply):
        """Goes on with the call in progress until it has ended, and answers its code."""
        while True:
            code = _lib.rht_go_on(self._at, _OPERATIONS, ctypes.byref(reply))
            if code != _NOT_YET:
                return code
            time.sleep(0)

    def _waited(self, begin, *args):
        """The code of a call that may wait, and its numbers. It begins by one operation, or in one go."""
        reply = _Reply()
        code = self._made(begin, *args, ctypes.byref(reply))
        if code == _NOT_YET:
            code = self._go_on(reply)
        return code, reply

    def _list(self, function, struct, count):
        """What came with the last call, which are so many."""
        if count == 0:
            return []
        into = (struct * count)()
        return into[: function(self._at, 0, into, count)]

    @_alone
    def find(self, port) -> Optional[int]:
        """The port's first owner, or None where it isn't bound. The answer was so at a moment of the call, and a port
        that is bound throughout the call is found. Both are proved of the library's call."""
        owner = _U32()
        code = self._made(_lib.rht_find, _port(port), ctypes.byref(owner))
        if code == _MISSING:
            return None
        if code != _FOUND:
            raise Misfit(code)
        return owner.value

    @_alone
    def bind(self, port, owner, once=False) -> Reply:
        """Binds a port to an owner: Bound, Exists, TooBig, Busy, NoTable, NoNode. With once it is tried once alone, and
        may answer Again. The kernel's function is rhashtable_insert_fast, with the look for the key of
        rhashtable_lookup_insert_key."""
        begin = _lib.rht_bind_once_in if once else _lib.rht_bind_in
        codes = _OF_BIND + (_AGAIN,) if once else _OF_BIND
        return _told(*self._waited(begin, _port(port), _number(owner, 32, "an owner"), _ROUNDS), codes)

    @_alone
    def release(self, port, owner) -> Reply:
        """Takes one binding of the port to the owner out: Released, Absent. The kernel's function is
        rhashtable_remove_fast."""
        owner = _number(owner, 32, "an owner")
        return _told(*self._waited(_lib.rht_release_in, _port(port), owner, _ROUNDS), _OF_RELEASE)

    @_alone
    def rebind(self, port, owner, new) -> Reply:
        """Puts a new owner in the place of the port's first owner that is this one: Rebound, Absent, NoNode. To all
        other calls it is one step."""
        owner, new = _number(owner, 32, "an owner"), _number(new, 32, "a new owner")
        return _told(*self._waited(_lib.rht_rebind_begin, _port(port), owner, new), _OF_REBIND)

    @_alone
    def all(self, port) -> List[int]:
        """The owners of a port, the first one first."""
        code, reply = self._waited(_lib.rht_all_begin, _port(port))
        if code != _LISTED:
            raise Misfit(code)
        return self._list(_lib.rht_owners, _U32, reply.len)

    @_alone
    def walk(self, cursor=None, limit=_PIECE) -> Reply:
        """Walks the table bucket by bucket, from a Cursor on, or from the first bucket without one. It ends behind a
        bucket once limit pairs or more were seen, and at a limit of 0 it walks one bucket: Walked, with the pairs.

        Again comes where the cursor doesn't fit, as one of a table that was left since. It comes too where a table is
        behind the one that is walked. Then no walk comes to its end until a work has moved the entries.

        Of the pieces together that go from the first bucket to the table's end it is proved what the library's calls
        show. Each port that stayed bound meanwhile is shown, and none twice. No pair is shown that wasn't so at a
        moment meanwhile."""
        return self._walk(cursor, limit)

    def _walk(self, cursor, limit):
        start = _Cursor()
        if cursor is not None:
            serial, bucket = cursor
            start = _Cursor(_number(serial, 64, "a serial"), _number(bucket, 32, "a bucket"), True)
        reply = _Reply()
        code = self._made(_lib.rht_walk, start, _number(limit, 32, "a limit"), ctypes.byref(reply))
        if code != _WALKED:
            return _told(code, reply, (_AGAIN,))
        pairs = [
            Pair(Port(pair.port.number, pair.port.net), pair.owner)
            for pair in self._list(_lib.rht_pairs, _Pair, reply.len)
        ]
        more = reply.next.more
        return Walked(pairs, Cursor(reply.next.serial, reply.next.bucket) if more else None)

    @_alone
    def pairs(self, tries=16) -> List[Pair]:
        """All pairs of a whole walk, so that one may write `for port, owner in seat.pairs()`. The walk is made as a
        whole before the first pair is given; what changes behind it isn't seen.

        Where a walk is answered Again, its pairs are given up. The seat makes work, and begins anew. After so many
        tries NotWhole is raised. It comes where another seat is at work all the while, or has stopped there. With
        tries 0 nothing is walked."""
        for _ in range(tries):
            pairs = self._whole()
            if pairs is not None:
                return pairs
            self._work()
            time.sleep(0)
        raise NotWhole("no walk came to the table's end in %d tries" % tries)

    def _whole(self):
        """The pairs of a walk from the first bucket to the table's end, or None where it has to begin anew."""
        pairs, cursor = [], None
        while True:
            reply = self._walk(cursor, _PIECE)
            if not reply:
                return None
            pairs += reply.pairs
            cursor = reply.next
            if cursor is None:
                return pairs

    @_alone
    def tidy(self) -> Reply:
        """Gives back the nodes that this seat's calls took out, all that wait or none: Clear, Pending. Those that were
        taken out while others wait are for a later tidying. So all have come back once it answers Clear(0). Pending
        may come also where no node waits."""
        reply = _Reply()
        return _told(self._made(_lib.rht_tidy, ctypes.byref(reply)), reply, _OF_TIDY)

    @_alone
    def count(self) -> int:
        """How many ports are bound. At a moment of the call they were at most so many, and fewer by no more than one
        for each other seat that was in a call. This is proved of the library's call."""
        reply = _Reply()
        code = self._made(_lib.rht_count, ctypes.byref(reply))
        if code != _COUNTED:
            raise Misfit(code)
        return reply.count

    @_alone
    def work(self) -> Reply:
        """Gives back tables that were left, and resizes the table where that is due: Moved, Idle, Elsewhere,
        NoTable."""
        return self._work()

    def _work(self):
        return _told(*self._waited(_lib.rht_work_begin), _OF_WORK)

    def close(self):
        """Closes the seat, and finishes a call in progress before. A closed seat stays closed, and behind a fork
        nothing is done. SeatInUse is raised where the seat is in a call.

        While nodes wait for the seat's tidying the library refuses to close it. So it is tidied and closed again, 64
        times at most. A call of another seat may keep the nodes waiting all the same. Then they are given up: they stay
        taken until the table ends, and given_up is their number.

        The last seat of a table gives back its memory, and what is bound then is lost; Table.end() gives it."""
        if os.getpid() == self._pid:
            self._close()

    @_alone
    def _close(self):
        code, given_up = _close_in_any_case(self._at)
        if code == _IN_CALL:
            self._go_on(_Reply())
            code, given_up = _close_in_any_case(self._at)
        self.given_up += given_up
        if code not in (_CLOSED, _NOT_OPEN):
            raise Misfit(code)


def _drawn_seed():
    """A seed from the system."""
    try:
        return int.from_bytes(os.urandom(4), "little")
    except (NotImplementedError, OSError) as error:
        raise NoSeed("the system gives no random bytes (%s)" % error) from error


def _config(numbers, listed, low, shrink):
    """The struct of a table's config. A number that is None stays that of a plain table, but for the seed."""
    config = _Config()
    _lib.rht_config_plain(ctypes.byref(config))
    if numbers["seed"] is None:
        config.seed = _drawn_seed()
    config.listed, config.low, config.shrink = bool(listed), bool(low), bool(shrink)
    for name, value in numbers.items():
        if value is None:
            continue
        value = operator.index(value)
        if not 0 <= value < 1 << 32:
            raise BadConfig("%s is %d" % (name, value))
        setattr(config, name, value)
    if not 1 <= config.callers <= 16:
        raise BadConfig("a table has 1 to 16 seats, not %d" % config.callers)
    return config


def _finish_all(seats):
    """Goes on by turns with the calls of these seats that an exception broke off, until none is in progress."""
    while [seat for seat in seats if _lib.rht_go_on(seat._at, _OPERATIONS, ctypes.byref(_Reply())) == _NOT_YET]:
        time.sleep(0)


def _close_together(seats, into, closed):
    """Brings the handles of these seats side by side, closes them, and answers the code.

    An exception may come between any two lines. So no handle is ever in two places where it can be used, and those
    that are open are moved back in any case."""
    size = ctypes.sizeof(_Handle)
    handles = (_Handle * len(seats))()
    try:
        for seat, handle in zip(seats, handles):
            ctypes.memmove(ctypes.byref(handle), seat._at, size)
            ctypes.memset(seat._at, 0, size)
        return _lib.rht_close_all(handles, len(seats), into, len(into), ctypes.byref(closed))
    finally:
        for seat, handle in zip(seats, handles):
            if handle.in_use:
                ctypes.memmove(seat._at, ctypes.byref(handle), size)


def _listed(pairs):
    """Each port of these pairs with its owners, both in their order."""
    bindings = []
    for pair in pairs:
        port = Port(pair.port.number, pair.port.net)
        if not bindings or bindings[-1][0] != port:
            bindings.append((port, []))
        bindings[-1][1].append(pair.owner)
    return bindings


class Table:
    """A table that was just opened, with `seats`, a tuple of as many seats as it has callers, and `config`. The seats
    share the table, which lasts as long as one of them is open. With `with` all of them are closed at the end. `end`
    closes them together, and gives what was bound.

    What a table is opened with:

    - callers: its seats, 1 to 16.
    - listed: a port may have any number of owners, and the last one that came is the first. Otherwise it has one.
    - nodes: the bindings that there may be at one time, 1 to 65,536; 4,096 where nothing is said. One that was taken
      out counts until it is tidied.
    - pages: the pages that buckets are kept in, of 64 buckets each, 4 to 4,096; 256 where nothing is said.
    - hint: the ports that are expected, 1 to 65,536, or 0 where nothing is said.
    - min: the least size in buckets, 65,536 at most. It is rounded up to a power of two, 4 at least.
    - max: the greatest size in buckets, 4 to 131,072, or 0 for none. It is rounded down to a power of two. The first
      table has 64 buckets, or with a hint the least power of two that is four thirds of it or more. It has min at
      least and max at most.
    - seed: the seed of the first table's hash, a number of 32 bits, from which those of later tables follow. Where
      nothing is said it is drawn from the system, by os.urandom, anew for each table. Whoever knows it can choose ports
      of one bucket.
    - rewalks: how often a look-up walks one bucket again, 0 to 255; 8 where nothing is said.
    - low: a port's number is its own hash, so that a test can choose buckets.
    - shrink: the table gets smaller when it is nearly empty.

    BadConfig is raised where a number isn't in its range, where min is above max, or where the first table doesn't
    fit the pages. NoSeed is raised where the system has no seed to give, and NoMemory where memory has run out. All
    memory that the library's calls need is taken here, but for that of `end`.
    """

    def __init__(
        self, callers=1, *, listed=False, nodes=None, pages=None, hint=None, min=None, max=None, seed=None,
        rewalks=None, low=False, shrink=False,
    ):
        numbers = {
            "callers": callers, "nodes": nodes, "pages": pages, "hint": hint, "min": min, "max": max, "seed": seed,
            "rewalks": rewalks,
        }
        config = _config(numbers, listed, low, shrink)
        handles = (_Handle * config.callers)()
        code = _lib.rht_open(ctypes.byref(config), handles, config.callers)
        if code == _BAD_CONFIG:
            raise BadConfig("no table can be opened with these numbers")
        if code == _NO_MEMORY:
            raise NoMemory("memory has run out")
        if code != _OPENED:
            raise Misfit(code)
        self._seats = tuple(Seat(caller, handle) for caller, handle in enumerate(handles))
        self.config = Config(**{field.name: getattr(config, field.name) for field in fields(Config)})

    @property
    def seats(self) -> Tuple[Seat, ...]:
        """The seats of the table, in order of their numbers, also those that were closed."""
        return self._seats

    @property
    def given_up(self) -> int:
        """How many nodes the seats that were closed one by one have given up, as Seat.close says."""
        return sum(seat.given_up for seat in self._seats)

    def end(self) -> Ended:
        """Closes all seats that are open together, and with them the table: Ended, with what was bound.

            with rht.Table(callers=2) as table:
                table.seats[0].bind(80, owner=7)
                table.end()     # Ended(bindings=[(Port(number=80, net=0), [7])], size=64)

        What seats bound that were closed before by themselves is told too. Calls that an exception broke off are
        finished before, by turns. It is proved of the library's call that one run has the calls of all seats that
        are closed by it, with their replies, and that this was bound at its end.

        If several threads call it at once, one at most gets what was bound. The others get SeatInUse or SeatClosed.

        SeatInUse is raised where a seat is in a call, SeatClosed where all seats were closed, Forked in a forked
        child, and NoMemory or MemoryError where memory has run out. Then no seat was closed. Where another exception
        breaks it off, as KeyboardInterrupt may, seats may be closed, and what was bound may be lost."""
        hold = _Hold()
        with hold.lock:
            for seat in self._seats:
                seat._hold(hold)
            return self._end([seat for seat in self._seats if seat._handle.in_use])

    def _end(self, seats):
        """The same with these seats, which are all that are open, and are held."""
        if not seats:
            raise SeatClosed("all seats of the table were closed")
        into, closed = (_Pair * self.config.nodes)(), _Closed()
        _finish_all(seats)
        code = _close_together(seats, into, closed)
        if code == _NO_MEMORY:
            raise NoMemory("memory has run out")
        if code == _TWO_TABLES:
            raise TwoTables("the seats are of several tables")
        if code != _ENDED:
            raise Misfit(code)
        return Ended(_listed(into[: closed.len]), closed.size)

    def close(self):
        """Closes all seats, each as Seat.close does. Where one is in a call, the others are closed, and SeatInUse is
        raised."""
        in_use = None
        for seat in self.seats:
            try:
                seat.close()
            except SeatInUse as error:
                in_use = error
        if in_use is not None:
            raise in_use

    def __enter__(self):
        return self

    def __exit__(self, *_):
        self.close()
