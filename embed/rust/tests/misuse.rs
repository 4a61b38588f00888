//! Uses that nobody means to make: calls that are dropped, forgotten, or gone on with by nothing.
//!
//! What doesn't compile is shown by the examples at `Seat` and `Progress`.

use rht::{Bind, BindOnce, Config, NotOpened, Port, Release, Seat, Step, Table, Tidy, Work};

fn port(number: u32) -> Port {
    Port::plain(number)
}

fn seats(callers: u32) -> Vec<Seat> {
    Table::open(Config { callers, ..Config::plain() }).expect("a table").seats
}

/// The reply of a call that has ended with its first step.
macro_rules! ended {
    ($step:expr) => {
        match $step {
            Step::Ended(reply) => reply,
            step => panic!("{step:?}"),
        }
    };
}

#[test]
fn configs_out_of_range_are_refused() {
    let plain = Config::plain();
    let configs = [
        Config { callers: 0, ..plain },
        Config { callers: 17, ..plain },
        Config { callers: u32::MAX, ..plain },
        Config { nodes: 0, ..plain },
        Config { nodes: 65_537, ..plain },
        Config { pages: 3, ..plain },
        Config { pages: 4_097, ..plain },
        Config { hint: 65_537, ..plain },
        Config { min: 65_537, ..plain },
        Config { min: u32::MAX, ..plain },
        Config { max: 3, ..plain },
        Config { max: 131_073, ..plain },
        Config { min: 16, max: 8, ..plain },
        Config { rewalks: 256, ..plain },
        Config { pages: 4, min: 512, ..plain },
    ];
    for config in configs {
        let refused = Table::open(config).map(|table| table.config);
        assert_eq!(refused, Err(NotOpened::BadConfig), "{config:?}");
    }
}

#[test]
fn configs_at_their_limits_are_opened() {
    let plain = Config::plain();
    let config = Config {
        nodes: 65_536,
        pages: 4_096,
        callers: 16,
        hint: 65_536,
        min: 65_536,
        max: 131_072,
        seed: u32::MAX,
        rewalks: 255,
        ..plain
    };
    let table = Table::open(config).expect("the greatest");
    assert_eq!(table.config, config);
    assert_eq!(table.seats.len(), 16);
    let config = Config { nodes: 1, pages: 4, min: 0, max: 7, rewalks: 0, seed: 0, ..plain };
    let table = Table::open(config).expect("the least");
    assert_eq!(table.config, Config { min: 4, max: 4, ..config });
}

/// It is finished at once, so another seat sees what came of it.
#[test]
fn a_call_that_is_dropped_is_finished() {
    let mut seats = seats(2);
    let [one, two] = &mut seats[..] else {
        panic!("two seats");
    };
    drop(one.begin_bind(port(80), 100));
    assert_eq!(two.find(port(80)), Some(100));
    let Step::NotYet(release) = one.begin_release(port(80), 100) else {
        panic!("a release has more than one operation");
    };
    drop(release.go_on(1));
    assert_eq!(two.find(port(80)), None);
}

#[test]
fn a_call_that_is_forgotten_is_finished_by_the_next_one() {
    let mut seat = seats(1).remove(0);
    std::mem::forget(seat.begin_bind(port(80), 100));
    let mut moved = Box::new(seat);
    assert_eq!(moved.owners(0, &mut [0]), 0);
    assert_eq!(moved.find(port(80)), Some(100));
    std::mem::forget(moved.begin_bind(port(81), 101));
    assert_eq!(moved.bind(port(82), 102), Bind::Bound { kick: false });
    assert_eq!(moved.count(), 3);
    std::mem::forget(moved.begin_release(port(81), 101));
    assert_eq!(moved.work(), Work::Idle);
    assert_eq!(moved.find(port(81)), None);
}

/// A seat closes also where it has a call in progress, and the others go on.
#[test]
fn a_seat_closes_in_the_middle_of_a_call() {
    let mut seats = seats(2);
    let mut first = seats.remove(0);
    std::mem::forget(first.begin_bind(port(80), 100));
    drop(first);
    assert_eq!(seats[0].find(port(80)), Some(100));
    assert_eq!(seats[0].release(port(80), 100), Release::Released { kick: false });
}

/// Without a round each of them stands before the lock, in its section, and holds no lock: another seat binds and
/// releases there. What it takes out waits for that section.
#[test]
fn a_call_in_one_go_is_left_before_the_lock() {
    let mut seats = seats(2);
    let [one, two] = &mut seats[..] else {
        panic!("two seats");
    };
    let Step::NotYet(bind) = one.bind_in(port(80), 100, 0) else {
        panic!("a bind takes a lock");
    };
    assert_eq!(two.find(port(80)), None);
    assert_eq!(ended!(two.bind_in(port(80), 200, 1)), Bind::Bound { kick: false });
    assert_eq!(ended!(two.release_in(port(80), 200, 1)), Release::Released { kick: false });
    let Tidy::Pending { caller: 0, .. } = two.tidy() else {
        panic!("the bind is in its section");
    };
    assert_eq!(bind.finish(), Bind::Bound { kick: false });
    assert_eq!(two.tidy(), Tidy::Clear { returned: 1 });
    let Step::NotYet(bind) = one.bind_once_in(port(81), 101, 0) else {
        panic!("a bind takes a lock");
    };
    assert_eq!(bind.finish(), BindOnce::Ended(Bind::Bound { kick: false }));
    let Step::NotYet(release) = one.release_in(port(80), 100, 0) else {
        panic!("a release takes a lock");
    };
    assert_eq!(two.find(port(80)), Some(100));
    assert_eq!(release.finish(), Release::Released { kick: false });
    assert_eq!(one.count(), 1);
}

/// Eleven operations lead a bind to the lock of the port's bucket, which it has then. Three rounds don't suffice for
/// any other call there, and neither do five operations more, until the bind has gone on.
#[test]
fn a_call_in_one_go_leaves_off_at_a_lock() {
    let mut seats = seats(4);
    let [one, two, three, four] = &mut seats[..] else {
        panic!("four seats");
    };
    assert_eq!(one.bind(port(80), 100), Bind::Bound { kick: false });
    // They are declared before the call that has the lock. So should this panic, that one is finished first.
    let (bind, once, release);
    let locked = two.begin_bind(port(80), 200).go_on(10);
    bind = one.bind_in(port(80), 300, 3).go_on(5);
    once = three.bind_once_in(port(80), 400, 3).go_on(5);
    release = four.release_in(port(80), 100, 3).go_on(5);
    assert!(matches!(locked, Step::NotYet(_)));
    assert!(matches!(bind, Step::NotYet(_)));
    assert!(matches!(once, Step::NotYet(_)));
    assert!(matches!(release, Step::NotYet(_)));
    assert_eq!(locked.finish(), Bind::Exists { owner: 100 });
    assert_eq!(bind.finish(), Bind::Exists { owner: 100 });
    assert_eq!(once.finish(), BindOnce::Ended(Bind::Exists { owner: 100 }));
    assert_eq!(release.finish(), Release::Released { kick: false });
    assert_eq!(ended!(one.bind_in(port(80), 300, 1)), Bind::Bound { kick: false });
}

/// Calls that go in one go finish one that was forgotten, as all calls do.
#[test]
fn a_call_that_has_left_off_and_is_forgotten_is_finished_by_the_next_one() {
    let mut seat = seats(1).remove(0);
    std::mem::forget(seat.bind_in(port(80), 100, 0));
    assert_eq!(ended!(seat.release_in(port(80), 100, 1)), Release::Released { kick: false });
    std::mem::forget(seat.bind_once_in(port(81), 101, 0));
    assert_eq!(ended!(seat.bind_in(port(80), 100, 1)), Bind::Bound { kick: false });
    drop(seat.release_in(port(81), 101, 0));
    assert_eq!(seat.find(port(81)), None);
    assert_eq!(seat.count(), 1);
}

#[test]
fn to_go_on_by_nothing_does_nothing() {
    let mut seat = seats(1).remove(0);
    let mut step = seat.begin_bind(port(80), 100);
    for _ in 0..1_000 {
        step = step.go_on(0);
    }
    let Step::NotYet(bind) = step else {
        panic!("a bind has more than one operation");
    };
    assert_eq!(bind.finish(), Bind::Bound { kick: false });
}

#[test]
fn a_call_is_gone_on_with_one_by_one() {
    let mut seat = seats(1).remove(0);
    let mut step = seat.begin_bind(port(80), 100);
    let mut operations = 1;
    while let Step::NotYet(progress) = step {
        step = progress.go_on(1);
        operations += 1;
        assert!(operations < 1_000);
    }
    assert!(operations > 1);
    let Step::Ended(reply) = step.go_on(u32::MAX) else {
        panic!("it had ended");
    };
    assert_eq!(reply, Bind::Bound { kick: false });
}

/// Two calls of one thread want one port. They are gone on with by turns, so each ends.
#[test]
fn calls_by_turns_end() {
    let mut seats = seats(2);
    let [one, two] = &mut seats[..] else {
        panic!("two seats");
    };
    let mut mine = one.begin_bind(port(80), 1);
    let mut other = two.begin_bind(port(80), 2);
    for _ in 0..1_000 {
        mine = mine.go_on(1);
        other = other.go_on(1);
    }
    match (mine, other) {
        (Step::Ended(Bind::Bound { .. }), Step::Ended(Bind::Exists { owner: 1 })) => {}
        (Step::Ended(Bind::Exists { owner: 2 }), Step::Ended(Bind::Bound { .. })) => {}
        other => panic!("{other:?}"),
    }
}

#[test]
fn a_thread_that_panics_closes_its_seat() {
    let mut seats = seats(2);
    let mut mine = seats.remove(0);
    let ended = std::thread::spawn(move || {
        std::mem::forget(mine.begin_bind(port(80), 100));
        panic!("meant to");
    })
    .join();
    assert!(ended.is_err());
    assert_eq!(seats[0].find(port(80)), Some(100));
}

#[test]
fn a_seat_says_who_it_is() {
    assert_eq!(format!("{:?}", seats(2)[1]), "Seat { caller: 1, .. }");
}
