//! Each call, by one seat or two of one thread. The replies are worked out by hand.

use rht::{
    Bind, BindOnce, Config, Cursor, Hash, Kind, Listed, NotWhole, Pair, Port, Rebind, Release, Seat, Step,
    Table, Tidy, Walk, Work,
};

fn port(number: u32) -> Port {
    Port::plain(number)
}

fn open(config: Config) -> Vec<Seat> {
    Table::open(config).expect("a table").seats
}

fn seat(config: Config) -> Seat {
    open(config).remove(0)
}

/// 4 buckets, and a port's number picks its bucket.
fn small() -> Config {
    Config { hint: 3, hash: Hash::Low, ..Config::plain() }
}

/// A table of 4 buckets with 6 ports: the sixth bind found 5 bound, so it put a table of 8 behind and bound there.
/// Nothing was moved.
fn with_a_table_behind() -> Seat {
    let mut seat = seat(small());
    for number in 0..6 {
        let Bind::Bound { .. } = seat.bind(port(number), 10 + number) else {
            panic!("{number} isn't bound");
        };
    }
    seat
}

#[test]
fn a_port_is_bound_found_and_released() {
    let mut seat = seat(Config::plain());
    assert_eq!(seat.find(port(80)), None);
    assert_eq!(seat.bind(port(80), 100), Bind::Bound { kick: false });
    assert_eq!(seat.find(port(80)), Some(100));
    assert_eq!(seat.bind(port(80), 200), Bind::Exists { owner: 100 });
    assert_eq!(seat.release(port(80), 200), Release::Absent);
    assert_eq!(seat.release(port(80), 100), Release::Released { kick: false });
    assert_eq!(seat.find(port(80)), None);
    assert_eq!(seat.release(port(80), 100), Release::Absent);
}

/// Of 8 random seeds two are alike once in 150 million runs.
#[test]
fn each_table_has_a_seed_of_its_own() {
    let open = |config| Table::open(config).expect("a table").config.seed;
    let mut seeds: Vec<u32> = (0..4).flat_map(|_| [open(Config::plain()), Config::default().seed]).collect();
    seeds.sort_unstable();
    seeds.dedup();
    assert_eq!(seeds.len(), 8);
    for seed in [0, 1, u32::MAX] {
        assert_eq!(open(Config { seed, ..Config::plain() }), seed);
    }
}

/// Where nobody else is at the bucket, one round is enough: the first step has the reply.
#[test]
fn a_call_in_one_go_ends_where_nobody_is_in_the_way() {
    let mut seat = seat(Config { nodes: 2, ..Config::plain() });
    assert!(matches!(seat.release_in(port(80), 1, 1), Step::Ended(Release::Absent)));
    assert!(matches!(seat.bind_in(port(80), 1, 1), Step::Ended(Bind::Bound { kick: false })));
    assert!(matches!(seat.bind_in(port(80), 2, 1), Step::Ended(Bind::Exists { owner: 1 })));
    let bound = BindOnce::Ended(Bind::Bound { kick: false });
    assert!(matches!(seat.bind_once_in(port(81), 2, 1), Step::Ended(reply) if reply == bound));
    assert!(matches!(seat.release_in(port(80), 2, 1), Step::Ended(Release::Absent)));
    assert!(matches!(seat.release_in(port(80), 1, 1), Step::Ended(Release::Released { kick: false })));
    // No lock comes before the node, so a bind is refused without a round.
    assert!(matches!(seat.bind_in(port(82), 3, 0), Step::Ended(Bind::NoNode)));
    assert_eq!((seat.find(port(80)), seat.find(port(81))), (None, Some(2)));
    assert_eq!(seat.count(), 1);
}

/// The table has 65 ports in 64 buckets, so the next bind wants a further table, and leaves off for that. The bind
/// after it finds that table there.
#[test]
fn a_bind_in_one_go_leaves_off_where_it_wants_a_table() {
    let mut seat = seat(Config::plain());
    for number in 0..65 {
        let Bind::Bound { .. } = seat.bind(port(number), 1) else {
            panic!("{number} isn't bound");
        };
    }
    let Step::NotYet(bind) = seat.bind_once_in(port(65), 1, 1) else {
        panic!("it wants a table");
    };
    assert_eq!(bind.finish(), BindOnce::Again { table: 1 });
    assert!(matches!(seat.bind_in(port(65), 1, 1), Step::Ended(Bind::Bound { kick: false })));
    assert_eq!(seat.count(), 66);
}

#[test]
fn a_net_is_a_part_of_the_port() {
    let mut seat = seat(Config::plain());
    let (one, two) = (Port { number: 80, net: 1 }, Port { number: 80, net: u16::MAX });
    assert_eq!(seat.bind(one, 0), Bind::Bound { kick: false });
    assert_eq!(seat.bind(two, u32::MAX), Bind::Bound { kick: false });
    assert_eq!(seat.find(one), Some(0));
    assert_eq!(seat.find(two), Some(u32::MAX));
    assert_eq!(seat.find(port(80)), None);
}

#[test]
fn a_rebind_takes_the_place_of_one_owner() {
    let mut seat = seat(Config { nodes: 2, ..Config::plain() });
    assert_eq!(seat.bind(port(7), 1), Bind::Bound { kick: false });
    assert_eq!(seat.rebind(port(7), 2, 3), Rebind::Absent);
    assert_eq!(seat.rebind(port(7), 1, 2), Rebind::Rebound);
    assert_eq!(seat.find(port(7)), Some(2));
    assert_eq!(seat.rebind(port(7), 2, 3), Rebind::NoNode);
    assert_eq!(seat.tidy(), Tidy::Clear { returned: 1 });
    assert_eq!(seat.rebind(port(7), 2, 3), Rebind::Rebound);
    assert_eq!(seat.find(port(7)), Some(3));
}

#[test]
fn a_port_of_a_listed_table_has_its_owners_in_order() {
    let mut seat = seat(Config { kind: Kind::Listed, ..Config::plain() });
    for owner in [5, 6, 5] {
        assert_eq!(seat.bind(port(80), owner), Bind::Bound { kick: false });
    }
    assert_eq!(seat.all(port(80)), [5, 6, 5]);
    assert_eq!(seat.all(port(81)), []);
    assert_eq!(seat.release(port(80), 5), Release::Released { kick: false });
    assert_eq!(seat.rebind(port(80), 6, 9), Rebind::Rebound);
    assert_eq!(seat.list(port(80)), Listed { len: 2 });
    let mut owners = [0; 3];
    assert_eq!(seat.owners(0, &mut owners), 2);
    assert_eq!(owners, [9, 5, 0]);
    assert_eq!(seat.owners(1, &mut owners[..1]), 1);
    assert_eq!(owners, [5, 5, 0]);
    assert_eq!(seat.owners(2, &mut owners), 0);
    assert_eq!(seat.owners(0, &mut []), 0);
    assert_eq!(seat.count(), 1);
    assert_eq!(seat.owners(0, &mut owners), 0, "the last call was a count");
}

#[test]
fn nodes_come_back_by_a_tidying() {
    let mut seat = seat(Config { nodes: 1, ..Config::plain() });
    assert_eq!(seat.tidy(), Tidy::Clear { returned: 0 });
    assert_eq!(seat.bind(port(80), 1), Bind::Bound { kick: false });
    assert_eq!(seat.bind(port(81), 2), Bind::NoNode);
    assert_eq!(seat.release(port(80), 1), Release::Released { kick: false });
    assert_eq!(seat.bind(port(81), 2), Bind::NoNode);
    assert_eq!(seat.tidy(), Tidy::Clear { returned: 1 });
    assert_eq!(seat.bind(port(81), 2), Bind::Bound { kick: false });
}

/// A call of another seat that was begun before the tidying holds the node back, until it has ended.
#[test]
fn a_call_in_progress_holds_nodes_back() {
    let mut seats = open(Config { callers: 2, ..Config::plain() });
    let [one, two] = &mut seats[..] else {
        panic!("two seats");
    };
    assert_eq!((one.caller(), two.caller()), (0, 1));
    assert_eq!(one.bind(port(80), 1), Bind::Bound { kick: false });
    assert_eq!(one.release(port(80), 1), Release::Released { kick: false });
    let Step::NotYet(listing) = two.begin_list(port(80)) else {
        panic!("a listing has more than one operation");
    };
    let Tidy::Pending { caller: 1, section } = one.tidy() else {
        panic!("the listing is in its section, which its first operation opened");
    };
    assert_eq!(one.tidy(), Tidy::Pending { caller: 1, section });
    assert_eq!(section % 2, 1);
    assert_eq!(listing.finish(), Listed { len: 0 });
    assert_eq!(one.tidy(), Tidy::Clear { returned: 1 });
}

#[test]
fn a_table_grows_by_work() {
    let mut seat = seat(small());
    assert_eq!(seat.work(), Work::Idle);
    for number in 0..3 {
        assert_eq!(seat.bind(port(number), number), Bind::Bound { kick: false });
    }
    assert_eq!(seat.bind(port(3), 3), Bind::Bound { kick: true }, "4 ports, 4 buckets");
    assert_eq!(seat.work(), Work::Moved { again: false });
    assert_eq!(seat.work(), Work::Idle);
    assert_eq!(seat.count(), 4);
    assert_eq!(
        (0..5).map(|n| seat.find(port(n))).collect::<Vec<_>>(),
        [Some(0), Some(1), Some(2), Some(3), None]
    );
}

#[test]
fn a_table_shrinks_by_work() {
    let mut seat = seat(Config { shrink: true, hint: 3, ..Config::plain() });
    let mut kicks = 0;
    for number in 0..30 {
        let Bind::Bound { kick } = seat.bind(port(number), 1) else {
            panic!("{number} isn't bound");
        };
        while kick && seat.work() == (Work::Moved { again: true }) {}
    }
    for number in 0..30 {
        let Release::Released { kick } = seat.release(port(number), 1) else {
            panic!("{number} isn't released");
        };
        kicks += u32::from(kick);
        while kick && seat.work() == (Work::Moved { again: true }) {}
    }
    assert!(kicks > 0);
    assert_eq!(seat.count(), 0);
}

/// One seat is at work, so the other one does nothing.
#[test]
fn one_seat_works_at_a_time() {
    let mut seats = open(Config { callers: 2, ..small() });
    let [one, two] = &mut seats[..] else {
        panic!("two seats");
    };
    for number in 0..4 {
        let _ = one.bind(port(number), number);
    }
    let Step::NotYet(work) = one.begin_work() else {
        panic!("a work has more than one operation");
    };
    assert_eq!(two.work(), Work::Elsewhere);
    assert_eq!(work.finish(), Work::Moved { again: false });
    assert_eq!(two.work(), Work::Idle);
}

/// All ports lie in one bucket. The seventeenth bind puts a table of the same size behind the first one, and the
/// thirty-third finds 16 ports in that one too.
#[test]
fn a_resize_has_to_end_before_a_bind() {
    let mut seat = seat(Config { hash: Hash::Low, ..Config::plain() });
    for number in 0..32 {
        let Bind::Bound { kick } = seat.bind(port(64 * number), 1) else {
            panic!("{number} isn't bound");
        };
        assert_eq!(kick, number == 16);
    }
    assert_eq!(seat.bind(port(64 * 32), 1), Bind::Busy { table: 0, last: 1 });
    assert_eq!(seat.work(), Work::Moved { again: false });
    assert_eq!(seat.bind(port(64 * 32), 1), Bind::Bound { kick: true });
}

#[test]
fn a_bind_tried_once_says_again() {
    let mut seat = seat(Config { hash: Hash::Low, ..Config::plain() });
    for number in 0..16 {
        let bound = BindOnce::Ended(Bind::Bound { kick: false });
        assert_eq!(seat.bind_once(port(64 * number), 1), bound);
    }
    assert_eq!(seat.bind_once(port(64 * 16), 1), BindOnce::Again { table: 1 });
    assert_eq!(seat.find(port(64 * 16)), None);
    let exists = BindOnce::Ended(Bind::Exists { owner: 1 });
    assert_eq!(seat.bind_once(port(0), 2), exists);
    let Bind::Bound { .. } = seat.bind(port(64 * 16), 1) else {
        panic!("the table behind has room");
    };
}

/// A greatest size of 4 buckets allows 8 ports.
#[test]
fn a_table_may_be_too_big() {
    let mut seat = seat(Config { max: 7, hint: 3, ..Config::plain() });
    for number in 0..8 {
        assert_eq!(seat.bind(port(number), 1), Bind::Bound { kick: false });
    }
    assert_eq!(seat.bind(port(8), 1), Bind::TooBig { count: 8 });
}

/// The table of 256 buckets has all four pages. So for one of 512 no run is free, and no page.
#[test]
fn no_further_table_may_be_had() {
    let config = Config { pages: 4, min: 256, hash: Hash::Low, ..Config::plain() };
    let mut seat = seat(config);
    for number in 0..193 {
        assert_eq!(seat.bind(port(number), 1), Bind::Bound { kick: number == 192 });
    }
    assert_eq!(seat.work(), Work::NoTable { size: 512 });
    for number in 193..257 {
        assert_eq!(seat.bind(port(number), 1), Bind::Bound { kick: true });
    }
    assert_eq!(seat.bind(port(257), 1), Bind::NoTable { size: 512 });
}

#[test]
fn a_walk_goes_on_in_pieces() {
    let mut seat = seat(small());
    for number in [1, 2, 3] {
        assert_eq!(seat.bind(port(number), 10 * number), Bind::Bound { kick: false });
    }
    let Walk::Walked { len: 0, next: Some(next) } = seat.walk(None, 0) else {
        panic!("bucket 0 is empty");
    };
    assert_eq!(next.bucket, 1);
    let mut pairs = vec![Pair::default()];
    let Walk::Walked { len: 2, next: Some(next) } = seat.walk_into(Some(next), 2, &mut pairs) else {
        panic!("buckets 1 and 2 have one port each");
    };
    let last = seat.walk_into(Some(next), 1, &mut pairs);
    assert_eq!(last, Walk::Walked { len: 1, next: None });
    let pair = |number| Pair { port: port(number), owner: 10 * number };
    assert_eq!(pairs, [Pair::default(), pair(1), pair(2), pair(3)]);
    let mut two = [Pair::default(); 2];
    let whole = seat.walk(None, 9);
    assert_eq!(whole, Walk::Walked { len: 3, next: None });
    assert_eq!((seat.pairs(1, &mut two), two), (2, [pair(2), pair(3)]));
    assert_eq!((seat.pairs(2, &mut two), two[0]), (1, pair(3)));
    assert_eq!((seat.pairs(3, &mut two), seat.pairs(usize::MAX, &mut two)), (0, 0));
    assert_eq!(seat.walk_all(1), Ok(vec![pair(1), pair(2), pair(3)]));
}

#[test]
fn a_cursor_that_fits_no_table_begins_anew() {
    let mut seat = seat(small());
    let odd = [Cursor { serial: 9, bucket: 0 }, Cursor { serial: 0, bucket: u32::MAX }];
    for cursor in odd {
        assert_eq!(seat.walk(Some(cursor), 1), Walk::Again { table: 0 });
        assert_eq!(seat.pairs(0, &mut [Pair::default()]), 0);
    }
}

#[test]
fn a_walk_begins_anew_until_the_entries_are_moved() {
    let mut seat = with_a_table_behind();
    assert_eq!(seat.walk(None, 9), Walk::Again { table: 1 });
    assert_eq!(seat.walk(None, 9), Walk::Again { table: 1 });
    assert_eq!(seat.walk_all(0), Err(NotWhole));
    assert_eq!(seat.walk_all(1), Err(NotWhole), "one try, and work behind it");
    let mut seat = with_a_table_behind();
    let mut pairs = seat.walk_all(2).expect("it works in between");
    pairs.sort();
    let all: Vec<Pair> = (0..6).map(|n| Pair { port: port(n), owner: 10 + n }).collect();
    assert_eq!(pairs, all);
}

/// The first piece of the walk sees 256 pairs, and the last one that a table is behind. So these pairs are given up.
#[test]
fn pairs_of_a_walk_that_is_given_up_are_not_shown() {
    let mut seat = seat(Config { hint: 384, hash: Hash::Low, ..Config::plain() });
    for number in 0..514 {
        let Bind::Bound { .. } = seat.bind(port(number), number) else {
            panic!("{number} isn't bound");
        };
    }
    let Walk::Walked { len: 256, next: Some(next) } = seat.walk(None, 256) else {
        panic!("the first buckets have 256 ports");
    };
    assert_eq!(seat.walk(Some(next), 300), Walk::Again { table: 1 });
    let pairs = seat.walk_all(2).expect("it works in between");
    assert_eq!(pairs.len(), 514);
}
