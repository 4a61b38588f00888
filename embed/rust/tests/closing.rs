//! Seats that are closed together, with what is bound at the end, and one by one, with nodes that wait or without.
//! The listings and numbers are worked out by hand.

use rht::{
    Bind, Closed, Config, Hash, Kind, NodesWait, NotClosed, Pair, Port, Rebind, Release, Seat, Step, Table,
    Tidy, WhyNotClosed, Work,
};
use std::thread;

fn port(number: u32) -> Port {
    Port::plain(number)
}

fn open(callers: u32, config: Config) -> Vec<Seat> {
    Table::open(Config { callers, ..config }).expect("a table").seats
}

fn pair(net: u16, number: u32, owner: u32) -> Pair {
    Pair { port: Port { number, net }, owner }
}

fn bind(seat: &mut Seat, port: Port, owner: u32) {
    let Bind::Bound { .. } = seat.bind(port, owner) else {
        panic!("{port:?} isn't bound");
    };
}

/// What was bound where these seats were the last ones.
fn ended(seats: Vec<Seat>) -> Closed {
    Seat::close_all(seats).expect("they are of one table").expect("no other seat is open")
}

#[test]
fn bindings_come_in_rising_order_of_ports() {
    let mut seats = open(3, Config::plain());
    let ports = [(3, 7), (0, u32::MAX), (u16::MAX, 0), (3, 6), (0, 9), (1, 8)];
    for (i, (net, number)) in ports.into_iter().enumerate() {
        bind(&mut seats[i % 3], Port { number, net }, i as u32);
    }
    assert_eq!(seats[0].release(Port { number: 8, net: 1 }, 5), Release::Released { kick: false });
    assert_eq!(seats[1].rebind(port(9), 4, 40), Rebind::Rebound);
    let bindings =
        vec![pair(0, 9, 40), pair(0, u32::MAX, 1), pair(3, 6, 3), pair(3, 7, 0), pair(u16::MAX, 0, 2)];
    assert_eq!(ended(seats), Closed { bindings, keys: 5, size: 64 });
}

#[test]
fn a_port_has_its_owners_in_order() {
    let mut seats = open(2, Config { kind: Kind::Listed, hint: 3, ..Config::plain() });
    for (i, owner) in [5, 6, 5, 4].into_iter().enumerate() {
        bind(&mut seats[i % 2], port(80), owner);
    }
    bind(&mut seats[0], port(1), 9);
    let bindings = vec![pair(0, 1, 9), pair(0, 80, 4), pair(0, 80, 5), pair(0, 80, 6), pair(0, 80, 5)];
    assert_eq!(ended(seats), Closed { bindings, keys: 2, size: 4 });
}

#[test]
fn a_table_may_be_empty() {
    for callers in [1, 16] {
        let table = Table::open(Config { callers, ..Config::plain() }).expect("a table");
        let closed = table.close().expect("they are of one table");
        assert_eq!(closed, Some(Closed { bindings: vec![], keys: 0, size: 64 }));
    }
}

/// All nodes are bound. No bind is made of a table that is behind, so the size is that of the first one.
#[test]
fn each_node_has_its_place() {
    for kind in [Kind::Single, Kind::Listed] {
        let mut seats = open(2, Config { nodes: 100, kind, hint: 96, ..Config::plain() });
        let ports = if kind == Kind::Single { 100 } else { 3 };
        for number in 0..100 {
            bind(&mut seats[number as usize % 2], port(number % ports), number);
        }
        assert_eq!(seats[0].bind(port(101), 1), Bind::NoNode);
        let closed = ended(seats);
        assert_eq!((closed.bindings.len(), closed.keys, closed.size), (100, ports, 128));
        let mut owners: Vec<u32> = closed.bindings.iter().map(|pair| pair.owner).collect();
        owners.sort_unstable();
        assert_eq!(owners, (0..100).collect::<Vec<_>>());
    }
}

/// Ports of both tables are told, and the size is that of the one with which a walk begins.
#[test]
fn a_table_behind_is_told_too() {
    for works in 0..2 {
        let mut seats = open(2, Config { hint: 3, hash: Hash::Low, ..Config::plain() });
        for number in 0..6 {
            bind(&mut seats[0], port(number), 10 + number);
        }
        for _ in 0..works {
            assert_eq!(seats[1].work(), Work::Moved { again: false });
        }
        let bindings = (0..6).map(|number| pair(0, number, 10 + number)).collect();
        assert_eq!(ended(seats), Closed { bindings, keys: 6, size: 4 << works });
    }
}

#[test]
fn a_seat_that_is_open_goes_on() {
    let mut seats = open(4, Config::plain());
    bind(&mut seats[0], port(80), 100);
    let mut left = seats.split_off(2);
    assert_eq!(Seat::close_all(seats).expect("they are of one table"), None);
    bind(&mut left[1], port(81), 101);
    assert_eq!(left[0].find(port(80)), Some(100));
    drop(left.pop());
    assert_eq!(ended(left).bindings, [pair(0, 80, 100), pair(0, 81, 101)]);
}

#[test]
fn a_table_closes_the_seats_that_it_has_still() {
    let mut table = Table::open(Config { callers: 3, ..Config::plain() }).expect("a table");
    let mut mine = table.seats.remove(1);
    bind(&mut mine, port(80), 100);
    assert_eq!(table.close().expect("they are of one table"), None);
    assert_eq!(mine.find(port(80)), Some(100));
    assert_eq!(ended(vec![mine]).bindings, [pair(0, 80, 100)]);
}

#[test]
fn seats_come_in_any_order() {
    let mut seats = open(3, Config::plain());
    bind(&mut seats[2], port(80), 100);
    seats.rotate_left(1);
    seats.swap(0, 1);
    assert_eq!(ended(seats).bindings, [pair(0, 80, 100)]);
}

/// The seats come back, in their order, and are as they were.
#[test]
fn seats_of_several_tables_are_refused() {
    let (mut ours, mut theirs) = (open(2, Config::plain()), open(2, Config::plain()));
    bind(&mut ours[0], port(80), 1);
    bind(&mut theirs[0], port(80), 2);
    ours.insert(1, theirs.remove(1));
    let NotClosed { mut seats, why } = Seat::close_all(ours).expect_err("one is of another table");
    assert_eq!(why, WhyNotClosed::SeveralTables);
    assert_eq!(seats.iter().map(Seat::caller).collect::<Vec<_>>(), [0, 1, 1]);
    let found: Vec<_> = seats.iter_mut().map(|seat| seat.find(port(80))).collect();
    assert_eq!(found, [Some(1), Some(2), Some(1)]);
    theirs.push(seats.remove(1));
    assert_eq!(ended(seats).bindings, [pair(0, 80, 1)]);
    assert_eq!(ended(theirs).bindings, [pair(0, 80, 2)]);
}

/// Tables that were opened one after another, of which the memory of one may be that of the next, are several.
#[test]
fn a_table_that_was_closed_is_another_one() {
    let mut kept = Vec::new();
    for number in 0..10 {
        let mut seats = open(2, Config::plain());
        bind(&mut seats[1], port(number), number);
        kept.push(seats.remove(0));
        drop(seats);
    }
    let refused = Seat::close_all(kept).expect_err("they are of ten tables");
    assert_eq!(refused.why, WhyNotClosed::SeveralTables);
    for (number, seat) in (0..).zip(refused.seats) {
        assert_eq!(ended(vec![seat]).bindings, [pair(0, number, number)]);
    }
}

#[test]
fn no_seat_is_refused() {
    let refused = Seat::close_all(Vec::new()).expect_err("there is none");
    assert_eq!((refused.why, refused.seats.len()), (WhyNotClosed::NoSeat, 0));
    assert_eq!(refused.to_string(), "there is no seat to close");
    let mut table = Table::open(Config::plain()).expect("a table");
    table.seats.clear();
    assert_eq!(table.close().expect_err("there is none").why, WhyNotClosed::NoSeat);
}

/// Two calls want one bucket, and one of them may hold its lock. They are forgotten, at any operation, and the seat of
/// the one that waits may be the first one that is given.
#[test]
fn calls_that_were_forgotten_are_finished_by_turns() {
    for (operations, other_first) in (0..30).flat_map(|operations| [(operations, false), (operations, true)])
    {
        let mut seats = open(3, Config::plain());
        let [one, two, _] = &mut seats[..] else {
            panic!("three seats");
        };
        let step = one.begin_bind(port(80), 1).go_on(operations);
        let is_over = matches!(step, Step::Ended(_));
        std::mem::forget(step);
        std::mem::forget(two.begin_bind(port(80), 2).go_on(operations));
        if other_first {
            seats.swap(0, 1);
        }
        let closed = ended(seats);
        assert_eq!((closed.bindings.len(), closed.keys), (1, 1));
        let owner = closed.bindings[0].owner;
        assert!(owner == 1 || owner == 2 && !is_over, "{operations}: {owner}");
    }
}

/// Binds this port, and takes it out again. Its node waits for a tidying.
fn take_out(seat: &mut Seat, at: Port) {
    bind(seat, at, 9);
    assert_eq!(seat.release(at, 9), Release::Released { kick: false });
}

/// How many ports can be bound, one after another.
fn room(seat: &mut Seat) -> u32 {
    assert_eq!(seat.tidy(), Tidy::Clear { returned: 0 });
    (1_000..).take_while(|&number| seat.bind(port(number), 1) != Bind::NoNode).count() as u32
}

/// Two seats of a table with three nodes.
fn two_of_three_nodes() -> (Seat, Seat) {
    let mut seats = open(2, Config { nodes: 3, ..Config::plain() });
    let two = seats.remove(1);
    (seats.remove(0), two)
}

#[test]
fn a_seat_closes_where_no_node_waits() {
    let (one, mut two) = two_of_three_nodes();
    one.close().expect("it has taken none out");
    assert_eq!(room(&mut two), 3);
    two.close().expect("it has taken none out");
}

/// Nothing is done by a close that is refused, so the tidying after it has the node.
#[test]
fn a_seat_does_not_close_while_a_node_waits() {
    let (mut one, mut two) = two_of_three_nodes();
    take_out(&mut one, port(80));
    let refused = one.close().expect_err("a node waits");
    assert_eq!(refused.to_string(), "nodes that the seat's calls took out still wait");
    let NodesWait { seat: mut one } = refused.seat.close().expect_err("it waits still");
    assert_eq!((one.caller(), one.find(port(80))), (0, None));
    assert_eq!(one.tidy(), Tidy::Clear { returned: 1 });
    one.close().expect("none waits");
    assert_eq!(room(&mut two), 3);
}

/// One node waits since a tidying, for the other seat's call, and one came after it.
#[test]
fn nodes_are_given_up() {
    let (mut one, mut two) = two_of_three_nodes();
    take_out(&mut one, port(80));
    let listing = two.begin_list(port(80));
    assert!(matches!(one.tidy(), Tidy::Pending { caller: 1, .. }));
    take_out(&mut one, port(81));
    assert_eq!(one.close_now(), 2);
    let _ = listing.finish();
    assert_eq!(room(&mut two), 1);
    assert_eq!(two.close_now(), 0);
}

/// No call is in the way, so the nodes come back.
#[test]
fn a_seat_that_is_dropped_tidies() {
    let (mut one, mut two) = two_of_three_nodes();
    take_out(&mut one, port(80));
    take_out(&mut one, port(81));
    drop(one);
    assert_eq!(room(&mut two), 3);
}

/// The other seat's call is in the way, and doesn't go on. So the drop ends, and the nodes are lost.
#[test]
fn a_seat_that_is_dropped_gives_nodes_up_in_the_end() {
    let (mut one, mut two) = two_of_three_nodes();
    let listing = two.begin_list(port(80));
    take_out(&mut one, port(80));
    take_out(&mut one, port(81));
    drop(one);
    let _ = listing.finish();
    assert_eq!(room(&mut two), 1);
}

/// A release that was forgotten takes its node out before the seat is to close.
#[test]
fn a_call_that_was_forgotten_is_finished_by_a_close() {
    let (mut one, mut two) = two_of_three_nodes();
    bind(&mut one, port(80), 9);
    std::mem::forget(one.begin_release(port(80), 9));
    let NodesWait { seat: mut one } = one.close().expect_err("a node waits");
    assert_eq!(two.find(port(80)), None);
    std::mem::forget(one.begin_bind(port(80), 9));
    assert_eq!(one.close_now(), 1);
    assert_eq!(two.find(port(80)), Some(9));
    assert_eq!(room(&mut two), 1);
}

/// Nodes that wait are no reason to refuse a closing together.
#[test]
fn seats_close_together_while_nodes_wait() {
    let (mut one, mut two) = two_of_three_nodes();
    take_out(&mut one, port(80));
    bind(&mut two, port(81), 9);
    assert_eq!(Seat::close_all(vec![one]).expect("it is one table's"), None);
    take_out(&mut two, port(80));
    assert_eq!(ended(vec![two]).bindings, [pair(0, 81, 9)]);
}

/// Threads bind ports of their own, and give their seats back. The listing has just what they have bound.
#[test]
fn seats_come_back_from_threads() {
    let seats = open(4, Config { hint: 3, shrink: true, ..Config::plain() });
    let threads: Vec<_> = seats.into_iter().map(|seat| thread::spawn(|| bind_own(seat))).collect();
    let seats = threads.into_iter().map(|thread| thread.join().expect("no panic")).collect();
    let closed = ended(seats);
    let own = |net: u16| (0..100).map(move |i| pair(net, 2 * i, 1_000 * u32::from(net) + 2 * i));
    assert_eq!(closed.bindings, (0..4).flat_map(own).collect::<Vec<_>>());
    assert_eq!(closed.keys, 400);
}

/// Binds 200 ports, and takes the odd ones out again.
fn bind_own(mut seat: Seat) -> Seat {
    let own = |seat: &Seat, number| Port { number, net: seat.caller() as u16 };
    for number in 0..200 {
        let (at, owner) = (own(&seat, number), 1_000 * seat.caller() + number);
        while !matches!(seat.bind(at, owner), Bind::Bound { .. }) {
            seat.work();
            thread::yield_now();
        }
    }
    for number in (1..200).step_by(2) {
        let (at, owner) = (own(&seat, number), 1_000 * seat.caller() + number);
        assert!(matches!(seat.release(at, owner), Release::Released { .. }));
        seat.work();
    }
    seat
}
