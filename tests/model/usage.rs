//! What the children of this program that have ended used, as the C library's `getrusage` says.

use std::ffi::{c_int, c_long};
use std::io;
use std::time::Duration;

/// The C library's `struct rusage` on Linux: two times of two numbers each, then fourteen numbers.
#[repr(C)]
#[derive(Default)]
pub struct Usage {
    user: Time,
    system: Time,
    /// The largest resident set in kilobytes of 1,024 bytes. A child starts as a copy of this small program,
    /// so that counts too.
    pub max_rss: c_long,
    others: [c_long; 13],
}

#[repr(C)]
#[derive(Default)]
struct Time {
    seconds: c_long,
    microseconds: c_long,
}

impl Time {
    fn duration(&self) -> Duration {
        Duration::from_secs(self.seconds as u64) + Duration::from_micros(self.microseconds as u64)
    }
}

const CHILDREN: c_int = -1;

extern "C" {
    fn getrusage(who: c_int, usage: *mut Usage) -> c_int;
}

pub fn of_children() -> io::Result<Usage> {
    let mut usage = Usage::default();
    // SAFETY: the place is as large as the C library's.
    match unsafe { getrusage(CHILDREN, &mut usage) } {
        0 => Ok(usage),
        _ => Err(io::Error::last_os_error()),
    }
}

impl Usage {
    /// Their own and the system's for them.
    pub fn processor_time(&self) -> Duration {
        self.user.duration() + self.system.duration()
    }
}
