//! Takes the word that each function of the library answers apart.
//!
//! Finished: bit 63 is 0, bits 0 to 23 hold the first value, bits 24 to 55 the
//! second, bits 56 to 62 the flags. Refused: bit 63 is 1, bits 56 to 62 hold
//! the refusal's number, bits 0 to 55 the value returned with it.

use crate::Refusal;

const NONE: u8 = 0;
const OVERRAN: u8 = 1;
const SAVED: u8 = 2;

/// A file was written.
#[derive(Clone, Copy, Debug, PartialEq, Eq)]
pub struct Written {
    /// The length of the file, which stands at the front of the lent buffer.
    pub bytes: usize,
    /// Its time or, of a laid file, its total, in ticks.
    pub time: u32,
}

/// A run went to its end.
#[derive(Clone, Copy, Debug, PartialEq, Eq)]
pub struct Ended {
    pub tick: u32,
    /// Whether a loop's test still held after its last round.
    pub overran: bool,
}

/// A run was stopped.
#[derive(Clone, Copy, Debug, PartialEq, Eq)]
pub struct Stopped {
    pub tick: u32,
    /// Whether a checkpoint was finished, so that there is an image.
    pub saved: bool,
}

/// What is known of a watched controller.
#[derive(Clone, Copy, Debug, PartialEq, Eq)]
#[repr(u8)]
pub enum Health {
    /// It was reset, and has not beaten since.
    Waiting = 0,
    /// Its count is 0 or more.
    Well = 1,
    /// Its count is -1.
    Suspect = 2,
    /// Its count came to -2. This holds until it is reset.
    Failed = 3,
}

/// An entry of a table, as a call left it.
#[derive(Clone, Copy, Debug, PartialEq, Eq)]
pub struct Watched {
    pub health: Health,
    /// Its count plus 2: the looks without a beat until it has failed, once it
    /// no longer waits.
    pub left: u32,
}

struct Finished {
    first: u32,
    second: u32,
    flags: u8,
}

/// The answer of `rack_time`.
pub fn timed(word: u64) -> Result<u32, Refusal> {
    Ok(one_value(word, NONE)?.first)
}

/// The answer of a call that writes a file: two values, and no flag.
pub fn written(word: u64) -> Result<Written, Refusal> {
    let finished = read(word)?;
    assert!(finished.flags == NONE, "a flag in {word:#x}");
    Ok(Written {
        bytes: finished.first as usize,
        time: finished.second,
    })
}

/// The answer of a call that runs to the end.
pub fn ended(word: u64) -> Result<Ended, Refusal> {
    let finished = one_value(word, OVERRAN)?;
    Ok(Ended {
        tick: finished.first,
        overran: finished.flags != NONE,
    })
}

/// The answer of `rack_run_until`.
pub fn stopped(word: u64) -> Result<Stopped, Refusal> {
    let finished = one_value(word, SAVED)?;
    Ok(Stopped {
        tick: finished.first,
        saved: finished.flags != NONE,
    })
}

/// The answer of a call of the watcher: a health and a number, and no flag.
/// These calls take 2 ns, so what is not finished is left to another function.
#[inline]
pub fn watched(word: u64) -> Result<Watched, Refusal> {
    // The flags and the first value in one number.
    let health = match word & 0xff00_0000_00ff_ffff {
        0 => Health::Waiting,
        1 => Health::Well,
        2 => Health::Suspect,
        3 => Health::Failed,
        _ => return Err(unwatched(word)),
    };
    Ok(Watched {
        health,
        left: (word >> 24) as u32,
    })
}

/// Why there is no health in a word.
#[cold]
fn unwatched(word: u64) -> Refusal {
    match read(word) {
        Err(refusal) => refusal,
        Ok(finished) => {
            assert!(finished.flags == NONE, "a flag in {word:#x}");
            panic!("no health in {word:#x}");
        }
    }
}

/// One value, and no flag but `allowed`.
fn one_value(word: u64, allowed: u8) -> Result<Finished, Refusal> {
    let finished = read(word)?;
    assert!(finished.second == 0, "a second value in {word:#x}");
    assert!(finished.flags & !allowed == 0, "a flag in {word:#x}");
    Ok(finished)
}

fn read(word: u64) -> Result<Finished, Refusal> {
    let high = (word >> 56) as u8 & 0x7f;
    if word >> 63 == 1 {
        return Err(Refusal::new(high, word & 0x00ff_ffff_ffff_ffff));
    }
    Ok(Finished {
        first: word as u32 & 0x00ff_ffff,
        second: (word >> 24) as u32,
        flags: high,
    })
}

#[cfg(test)]
mod tests;
