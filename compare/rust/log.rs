//! Stands in for the crate `log`: the three macros that tachtalk-elm327-lib uses. As there, a record is made only if its level is on, and all are off until
//! `set_level`; the test is one relaxed load.
use std::fmt::Arguments;
use std::sync::atomic::{AtomicUsize, Ordering};

static LEVEL: AtomicUsize = AtomicUsize::new(0);

/// Which levels are written to standard error: 0 none, 2 warnings, 3 also infos, 4 all.
pub fn set_level(level: usize) {
    LEVEL.store(level, Ordering::Relaxed);
}

#[inline]
pub fn on(level: usize) -> bool {
    level <= LEVEL.load(Ordering::Relaxed)
}

#[cold]
pub fn write(text: Arguments) {
    eprintln!("{text}");
}

#[macro_export]
macro_rules! warn {
    ($($arg:tt)*) => { if $crate::on(2) { $crate::write(format_args!($($arg)*)) } };
}

#[macro_export]
macro_rules! info {
    ($($arg:tt)*) => { if $crate::on(3) { $crate::write(format_args!($($arg)*)) } };
}

#[macro_export]
macro_rules! debug {
    ($($arg:tt)*) => { if $crate::on(4) { $crate::write(format_args!($($arg)*)) } };
}
