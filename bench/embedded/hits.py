"""Look-ups of bound ports from Python: what hits.c does, by the module rht, with its words and its lines. They are
plain calls in a loop of one thread, so nearly all of their time is the interpreter's. bench/embed runs it."""

import sys
import time

import rht

OWNER = 7


def hits(find, ports):
    right = 0
    for port in ports:
        right += find(port) == OWNER
    return right


def main(count, threads, rounds, nodes, pages, net):
    if threads != 1:
        sys.exit("hits: one thread alone is measured")
    ports = [rht.Port(number, net) for number in range(count)]
    with rht.Table(nodes=nodes, pages=pages, hint=count, seed=1) as table:
        (seat,) = table.seats
        if not all(seat.bind(port, OWNER) for port in ports):
            sys.exit("hits: a port isn't bound")
        began = time.perf_counter_ns()
        right = sum(hits(seat.find, ports) for _ in range(rounds))
        nanos = time.perf_counter_ns() - began
    print("hits_of_%d %d %d" % (count, threads, right))
    print("hits_of_%d %d %.2f" % (count, threads, nanos / max(right, 1)), file=sys.stderr)


main(*map(int, sys.argv[1:]))
