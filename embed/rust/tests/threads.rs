//! Threads that share a table. What they are answered depends on no order, so each run has to end alike.

use rht::{Bind, Config, Pair, Port, Rebind, Release, Seat, Table, Tidy, Work};
use std::sync::atomic::{AtomicBool, AtomicU32, Ordering};
use std::thread;

fn seats(config: Config) -> Vec<Seat> {
    Table::open(config).expect("a table").seats
}

fn port(number: u32) -> Port {
    Port { number, net: 7 }
}

/// Works until there is no more to do, or another seat is at it.
fn work(seat: &mut Seat) {
    while seat.work() == (Work::Moved { again: true }) {}
}

/// Binds a free port, whatever has to be done before.
fn bind(seat: &mut Seat, port: Port, owner: u32) {
    loop {
        match seat.bind(port, owner) {
            Bind::Bound { kick: true } => return work(seat),
            Bind::Bound { kick: false } => return,
            Bind::NoNode => tidy(seat),
            Bind::Busy { .. } | Bind::NoTable { .. } => work(seat),
            other => panic!("{port:?}: {other:?}"),
        }
        thread::yield_now();
    }
}

/// Gives back what waits, where it may.
fn tidy(seat: &mut Seat) {
    let (Tidy::Clear { .. } | Tidy::Pending { .. }) = seat.tidy();
}

/// Gives back all nodes that the seat took out, so that none is missed by the others.
fn tidy_all(seat: &mut Seat) {
    while seat.tidy() != (Tidy::Clear { returned: 0 }) {
        thread::yield_now();
    }
}

fn release(seat: &mut Seat, port: Port, owner: u32) {
    let Release::Released { kick } = seat.release(port, owner) else {
        panic!("{port:?} isn't bound to {owner}");
    };
    if kick {
        work(seat);
    }
}

/// Runs the same with each seat, in a thread of its own.
fn in_threads(seats: &mut [Seat], run: impl Fn(u32, &mut Seat) + Sync) {
    let run = &run;
    thread::scope(|scope| {
        for (number, seat) in (0..).zip(seats) {
            scope.spawn(move || run(number, seat));
        }
    });
}

/// Each thread binds and releases ports of its own, and no other thread disturbs what it finds. The table grows and
/// shrinks meanwhile. In the end a walk shows just what is left.
#[test]
fn ranges_of_their_own() {
    let config = Config { callers: 4, hint: 3, shrink: true, ..Config::plain() };
    let mut seats = seats(config);
    in_threads(&mut seats, |thread, seat| {
        for round in 0..3 {
            let mine = |n| port(thread * 1_000 + n);
            for n in 0..300 {
                bind(seat, mine(n), n);
                assert_eq!(seat.find(mine(n)), Some(n));
            }
            for n in (0..300).filter(|n| round < 2 || n % 3 != 0) {
                assert_eq!(seat.find(mine(n)), Some(n));
                release(seat, mine(n), n);
                assert_eq!(seat.find(mine(n)), None);
            }
            tidy(seat);
        }
    });
    let left = (0..4).flat_map(|thread| (0..300).step_by(3).map(move |n| (thread * 1_000 + n, n)));
    let left: Vec<Pair> = left.map(|(number, owner)| Pair { port: port(number), owner }).collect();
    let mut pairs = seats[0].walk_all(16).expect("nobody else is about");
    pairs.sort();
    assert_eq!(pairs, left);
    assert_eq!(seats[3].count(), left.len() as u64);
}

/// Ports that stay bound are found at each look-up and shown by each walk, once, while others come and go and the
/// table is resized.
#[test]
fn what_stays_bound_is_found() {
    const STAY: u32 = 50;
    let mut seats = seats(Config { callers: 4, hint: 3, shrink: true, ..Config::plain() });
    for number in 0..STAY {
        bind(&mut seats[0], port(number), 1_000 + number);
    }
    let done = AtomicBool::new(false);
    let (readers, writers) = seats.split_at_mut(2);
    thread::scope(|scope| {
        let writers: Vec<_> =
            (1..).zip(writers).map(|(thread, seat)| scope.spawn(move || come_and_go(thread, seat))).collect();
        for seat in readers {
            let done = &done;
            scope.spawn(move || {
                while !done.load(Ordering::SeqCst) {
                    find_all(STAY, seat);
                }
                find_all(STAY, seat);
            });
        }
        for writer in writers {
            writer.join().expect("a writer");
        }
        done.store(true, Ordering::SeqCst);
    });
}

/// Binds and releases ports that nobody else has.
fn come_and_go(thread: u32, seat: &mut Seat) {
    for _ in 0..5 {
        for n in 0..200 {
            bind(seat, port(thread * 1_000 + n), 9);
        }
        for n in 0..200 {
            release(seat, port(thread * 1_000 + n), 9);
        }
        tidy(seat);
    }
}

/// Finds each port that stays, and sees it once in a whole walk, where one is to be had.
fn find_all(stay: u32, seat: &mut Seat) {
    for number in 0..stay {
        assert_eq!(seat.find(port(number)), Some(1_000 + number));
    }
    let Ok(pairs) = seat.walk_all(4) else {
        return;
    };
    let mut seen: Vec<u32> = pairs.iter().filter(|p| p.owner >= 1_000).map(|p| p.port.number).collect();
    seen.sort();
    assert_eq!(seen, (0..stay).collect::<Vec<_>>());
}

/// All threads count one owner up by rebinds. Each number is left by one rebind alone, so their sum is the last one.
#[test]
fn each_rebind_succeeds_once() {
    const EACH: u32 = 300;
    let mut seats = seats(Config { callers: 4, nodes: 64, ..Config::plain() });
    bind(&mut seats[0], port(1), 0);
    in_threads(&mut seats, |_, seat| {
        let mut made = 0;
        while made < EACH {
            let owner = seat.find(port(1)).expect("it stays bound");
            match seat.rebind(port(1), owner, owner + 1) {
                Rebind::Rebound => made += 1,
                Rebind::Absent => {}
                Rebind::NoNode => {
                    tidy(seat);
                    thread::yield_now();
                }
            }
        }
        tidy_all(seat);
    });
    assert_eq!(seats[0].find(port(1)), Some(4 * EACH));
    assert_eq!(seats[1].all(port(1)), [4 * EACH]);
}

/// All threads bind the same ports. Each port has one that bound it, and the others are told who.
#[test]
fn one_thread_gets_a_port() {
    let mut seats = seats(Config { callers: 4, ..Config::plain() });
    let bound = AtomicU32::new(0);
    in_threads(&mut seats, |thread, seat| {
        for number in 0..500 {
            loop {
                match seat.bind(port(number), thread) {
                    Bind::Bound { kick } => {
                        bound.fetch_add(1, Ordering::SeqCst);
                        if kick {
                            work(seat);
                        }
                        break;
                    }
                    Bind::Exists { owner } => {
                        assert_ne!(owner, thread);
                        break;
                    }
                    Bind::Busy { .. } | Bind::NoTable { .. } => work(seat),
                    other => panic!("{other:?}"),
                }
            }
        }
    });
    assert_eq!(bound.into_inner(), 500);
    assert_eq!(seats[0].count(), 500);
}

/// A seat may be handed from thread to thread, and its calls go on where they were.
#[test]
fn a_seat_goes_from_thread_to_thread() {
    let mut seat = seats(Config::plain()).remove(0);
    for number in 0..4 {
        seat = thread::spawn(move || {
            bind(&mut seat, port(number), number);
            seat
        })
        .join()
        .expect("a thread");
    }
    assert_eq!(seat.count(), 4);
}

/// Places for messages. They are written and read with no order of their own.
fn places(count: u32) -> Vec<AtomicU32> {
    (0..count).map(|_| AtomicU32::new(0)).collect()
}

/// What a message says, which is never 0.
fn text(message: u32) -> u32 {
    message ^ 0xdead_beef
}

fn write(places: &[AtomicU32], message: u32) {
    places[message as usize].store(text(message), Ordering::Relaxed);
}

fn is_stale(places: &[AtomicU32], message: u32) -> bool {
    places[message as usize].load(Ordering::Relaxed) != text(message)
}

/// A thread writes each message in a place of its own, and binds a port to the number of the place. Another one looks
/// for the port until it finds that number, and reads the place.
#[test]
fn messages_pass_through_a_bind_and_a_find() {
    const MESSAGES: u32 = 60_000;
    const PORTS: u32 = 64;
    let mut seats = seats(Config { callers: 2, ..Config::plain() });
    let places = places(MESSAGES);
    let [sender, receiver] = &mut seats[..] else {
        panic!("two seats");
    };
    let mut stale = 0;
    thread::scope(|scope| {
        scope.spawn(|| {
            for message in 0..MESSAGES {
                write(&places, message);
                while !matches!(sender.bind(port(message % PORTS), message), Bind::Bound { .. }) {
                    work(sender);
                    thread::yield_now();
                }
            }
        });
        for message in 0..MESSAGES {
            while receiver.find(port(message % PORTS)) != Some(message) {
                thread::yield_now();
            }
            stale += u32::from(is_stale(&places, message));
            release(receiver, port(message % PORTS), message);
            tidy(receiver);
        }
    });
    assert_eq!(stale, 0);
}

/// A thread gives one port an owner after another, each the number of the place of a message. Another one reads the
/// message of each owner that it finds.
#[test]
fn messages_pass_through_a_rebind_and_a_find() {
    const MESSAGES: u32 = 20_000;
    let mut seats = seats(Config { callers: 2, ..Config::plain() });
    let places = places(MESSAGES);
    let [sender, receiver] = &mut seats[..] else {
        panic!("two seats");
    };
    write(&places, 0);
    bind(sender, port(1), 0);
    let mut stale = 0;
    thread::scope(|scope| {
        let sending = scope.spawn(|| {
            for message in 1..MESSAGES {
                write(&places, message);
                while sender.rebind(port(1), message - 1, message) != Rebind::Rebound {
                    tidy(sender);
                    thread::yield_now();
                }
            }
        });
        while !sending.is_finished() {
            let message = receiver.find(port(1)).expect("it stays bound");
            stale += u32::from(is_stale(&places, message));
        }
    });
    assert_eq!(stale, 0);
    assert_eq!(seats[0].find(port(1)), Some(MESSAGES - 1));
}
