//! Opening a table.

use crate::config::Config;
use crate::ffi::{self, Handle, code};
use crate::replies::misfit;
use crate::seat::{Origin, Seat};
use core::fmt;
use core::mem::replace;
use std::sync::Arc;

/// The greatest number of seats.
pub(crate) const MOST_SEATS: usize = 16;

/// A table that was just opened: all of its seats, and its config. The table itself is what the seats share, so it
/// lasts as long as one of them is open. [`close`](Table::close) gives what is bound at its end.
#[derive(Debug)]
pub struct Table {
    /// The config that it was opened with, its sizes rounded.
    pub config: Config,
    /// As many seats as the config has callers, in order of their numbers. Each may go to a thread of its own. No
    /// further one can be had.
    pub seats: Vec<Seat>,
}

impl Table {
    /// Opens a table. All memory that calls will need is taken here, by `malloc`, but for that of closing seats together.
    ///
    /// ```
    /// use rht::{Config, NotOpened, Table};
    ///
    /// let table = Table::open(Config { min: 100, ..Config::plain() }).unwrap();
    /// assert_eq!(table.config.min, 128);
    ///
    /// let refused = Table::open(Config { callers: 17, ..Config::plain() });
    /// assert_eq!(refused.unwrap_err(), NotOpened::BadConfig);
    /// ```
    ///
    /// # Errors
    ///
    /// `BadConfig` where a number of the config isn't in its range, where the least size is above the greatest, or
    /// where the first table doesn't fit the pages. `NoMemory` where memory has run out.
    pub fn open(config: Config) -> Result<Table, NotOpened> {
        let mut config = config.to_c();
        let mut handles = [const { Handle::BLANK }; MOST_SEATS];
        let Some(handles) = handles.get_mut(..config.callers as usize) else {
            return Err(NotOpened::BadConfig);
        };
        match ffi::open(&mut config, handles) {
            code::OPENED => {}
            code::BAD_CONFIG => return Err(NotOpened::BadConfig),
            code::NO_MEMORY => return Err(NotOpened::NoMemory),
            code => misfit(code),
        }
        let origin = Arc::new(Origin { nodes: config.nodes });
        let seats = (0..)
            .zip(handles)
            .map(|(caller, handle)| Seat::of(caller, replace(handle, Handle::BLANK), origin.clone()))
            .collect();
        Ok(Table { config: Config::from_c(&config), seats })
    }
}

/// Why no table was opened. None of its memory stays taken.
#[derive(Clone, Copy, Debug, PartialEq, Eq)]
pub enum NotOpened {
    /// No table can be opened with this config.
    BadConfig,
    /// Memory has run out.
    NoMemory,
}

impl fmt::Display for NotOpened {
    fn fmt(&self, f: &mut fmt::Formatter<'_>) -> fmt::Result {
        f.write_str(match self {
            NotOpened::BadConfig => "no table can be opened with this config",
            NotOpened::NoMemory => "memory has run out",
        })
    }
}

impl std::error::Error for NotOpened {}
