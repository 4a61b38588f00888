"""Four threads share a table, and want the same 3,000 ports. Each port is bound by one of them."""
from concurrent.futures import ThreadPoolExecutor
from threading import Barrier

import rht

start = Barrier(4)


def run(seat):
    """Binds each port that is free, looks each one up, and answers how many it has bound."""
    start.wait()
    bound = 0
    for number in range(3000):
        reply = seat.bind(number, owner=seat.caller)
        if not isinstance(reply, (rht.Bound, rht.Exists)):
            raise RuntimeError(reply)
        owner = seat.caller if reply else reply.owner
        bound += bool(reply)
        while reply in (rht.Bound(kick=True), rht.Moved(again=True)):
            reply = seat.work()  # the table is due to grow
        if seat.find(number) != owner:
            raise RuntimeError("port %d isn't found as bound to %d" % (number, owner))
    return bound


with rht.Table(callers=4) as table, ThreadPoolExecutor(4) as pool:
    bound = list(pool.map(run, table.seats))
    print("the threads bound %s of %d ports" % (bound, table.seats[0].count()))
    assert sum(bound) == 3000
