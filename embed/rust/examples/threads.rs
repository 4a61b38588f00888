//! Four threads share a table, and want the same 3,000 ports. Each port is bound by one of them.
use rht::{Bind, Config, NotOpened, Port, Seat, Table, Work};
use std::thread;

fn main() -> Result<(), NotOpened> {
    let table = Table::open(Config { callers: 4, ..Config::plain() })?;
    let threads: Vec<_> = table.seats.into_iter().map(|seat| thread::spawn(|| bind_all(seat))).collect();
    let bound: Vec<u32> = threads.into_iter().map(|thread| thread.join().expect("no panic")).collect();
    println!("the threads bound {bound:?} of 3,000 ports");
    assert_eq!(bound.iter().sum::<u32>(), 3_000);
    Ok(())
}

/// Binds each port that is free, looks each one up, and says how many it has bound.
fn bind_all(mut seat: Seat) -> u32 {
    let mut bound = 0;
    for port in (0..3_000).map(Port::plain) {
        let owner = match seat.bind(port, seat.caller()) {
            Bind::Bound { kick } => {
                while kick && seat.work() == (Work::Moved { again: true }) {}
                bound += 1;
                seat.caller()
            }
            Bind::Exists { owner } => owner,
            refused => panic!("{port:?}: {refused:?}"),
        };
        assert_eq!(seat.find(port), Some(owner));
    }
    bound
}
