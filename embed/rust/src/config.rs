//! What a table is opened with.

use crate::ffi;
use std::collections::hash_map::RandomState;
use std::hash::{BuildHasher, Hasher};

/// How many owners a port may have.
#[derive(Clone, Copy, Debug, PartialEq, Eq, Hash)]
pub enum Kind {
    /// One owner at most.
    Single,
    /// Any number of owners, in a list. The one that came last is the first.
    Listed,
}

/// By which hash a port's bucket is picked.
#[derive(Clone, Copy, Debug, PartialEq, Eq, Hash)]
pub enum Hash {
    /// By the final mix of `jhash`, over number, net and seed.
    Mix,
    /// A port's number is its own hash, so that a test can choose buckets.
    Low,
}

/// What a table is opened with. Any numbers may be written here; `Table::open` refuses what it can't open.
///
/// `min` is at most `max`, where that isn't 0. The first table has 64 buckets, or with a hint the least power of two
/// that is four thirds of it or more. It has `min` at least and `max` at most, and has to fit in the pages.
///
/// ```
/// use rht::{Config, Kind};
///
/// let config = Config { callers: 4, kind: Kind::Listed, ..Config::plain() };
/// assert_eq!((config.nodes, config.pages), (4_096, 256));
/// ```
#[derive(Clone, Copy, Debug, PartialEq, Eq, Hash)]
pub struct Config {
    /// How many owners a port may have.
    pub kind: Kind,
    /// The bindings that there may be at one time, 1 to 65,536. One that was taken out counts until it is tidied.
    pub nodes: u32,
    /// The pages that buckets are kept in, of 64 buckets each, 4 to 4,096.
    pub pages: u32,
    /// The seats of the table, 1 to 16.
    pub callers: u32,
    /// The ports that are expected, 1 to 65,536, or 0 where nothing is said.
    pub hint: u32,
    /// The least size in buckets, 65,536 at most. It is rounded up to a power of two, 4 at least.
    pub min: u32,
    /// The greatest size in buckets, 4 to 131,072, or 0 for none. It is rounded down to a power of two.
    pub max: u32,
    /// The seed of the first table's hash, any number of 32 bits. Those of later tables follow from it. Whoever knows
    /// it can choose ports that all lie in one bucket, so a program that gives one keeps it to itself.
    pub seed: u32,
    /// How often a look-up walks one bucket again, 0 to 255.
    pub rewalks: u32,
    /// By which hash a port's bucket is picked.
    pub hash: Hash,
    /// Whether the table gets smaller when it is nearly empty.
    pub shrink: bool,
}

impl Config {
    /// A table with 4,096 nodes, 256 pages and one seat, of one owner for each port, that doesn't shrink.
    ///
    /// Each call draws a seed of its own, from the random state of `std`, whose keys come from the system. A program
    /// that wants each of its runs alike gives one: `Config { seed: 1, ..Config::plain() }`.
    #[must_use]
    pub fn plain() -> Config {
        let mut config = ffi::Config::EMPTY;
        ffi::rht_config_plain(&mut config);
        Config { seed: drawn_seed(), ..Config::from_c(&config) }
    }

    pub(crate) fn from_c(config: &ffi::Config) -> Config {
        Config {
            kind: if config.listed { Kind::Listed } else { Kind::Single },
            nodes: config.nodes,
            pages: config.pages,
            callers: config.callers,
            hint: config.hint,
            min: config.min,
            max: config.max,
            seed: config.seed,
            rewalks: config.rewalks,
            hash: if config.low { Hash::Low } else { Hash::Mix },
            shrink: config.shrink,
        }
    }

    pub(crate) fn to_c(self) -> ffi::Config {
        ffi::Config {
            nodes: self.nodes,
            pages: self.pages,
            callers: self.callers,
            hint: self.hint,
            min: self.min,
            max: self.max,
            seed: self.seed,
            rewalks: self.rewalks,
            listed: self.kind == Kind::Listed,
            low: self.hash == Hash::Low,
            shrink: self.shrink,
            spare: ffi::NO_SPARE,
        }
    }
}

/// A seed that others don't know: one half of a hash over nothing, by keys of its own.
fn drawn_seed() -> u32 {
    RandomState::new().build_hasher().finish() as u32
}

impl Default for Config {
    /// The plain config, with a seed of its own.
    fn default() -> Config {
        Config::plain()
    }
}
