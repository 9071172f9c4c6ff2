//! The settings, in one record or in two, and what they say of a step's ticks.

use crate::record::{Kind, Record, SIZE};
use crate::Refused;

const MOST_WINDOW: u32 = 1_000_000;
const MOST_PERIOD: u32 = 1_000_000;
const MOST_MULTIPLY: u32 = 65_535;

pub(crate) struct Settings {
    /// A SET of any operation but multiply.
    set: u32,
    multiply: u32,
    read: u32,
    write: u32,
    pub beat: u32,
    pub save: u32,
    /// Ticks from one checkpoint to the next, K × H, which 32 bits do not hold.
    pub spacing: u64,
    pub window: u32,
    pub period: u32,
}

/// The numbers of either form, as they stand.
struct Numbers {
    /// SET, READ, WRITE, BEAT, SAVE and K.
    small: [u32; 6],
    window: u32,
    period: u32,
    multiply: u32,
}

impl Numbers {
    fn of_one_record(bytes: &[u8; SIZE]) -> Numbers {
        let [set, read, write, beat, save, k, low, high, period @ ..] = *bytes;
        Numbers {
            small: [set, read, write, beat, save, k].map(u32::from),
            window: u16::from_le_bytes([low, high]).into(),
            period: u32::from_le_bytes(period),
            multiply: set.into(),
        }
    }

    fn of_two_records(first: &[u8; SIZE], second: &[u8; SIZE]) -> Numbers {
        let mut small = [0; 6];
        for (number, bytes) in small.iter_mut().zip(first.as_chunks().0) {
            *number = u16::from_le_bytes(*bytes).into();
        }
        let large = |at: usize| u32::from_le_bytes(second.as_chunks().0[at]);
        Numbers { small, window: large(0), period: large(1), multiply: large(2) }
    }

    fn good(&self) -> bool {
        self.small.iter().all(|&number| number != 0)
            && (1..=MOST_WINDOW).contains(&self.window)
            && (1..=MOST_PERIOD).contains(&self.period)
            && (1..=MOST_MULTIPLY).contains(&self.multiply)
    }
}

impl Settings {
    pub(crate) fn read(bytes: &[u8]) -> Result<Settings, Refused> {
        let numbers = match bytes.as_chunks() {
            ([record], []) => Numbers::of_one_record(record),
            ([first, second], []) => Numbers::of_two_records(first, second),
            _ => return Err(Refused::plain(6)),
        };
        if !numbers.good() {
            return Err(Refused::plain(6));
        }
        let Numbers { small: [set, read, write, beat, save, k], window, period, multiply } =
            numbers;
        let spacing = u64::from(k) * u64::from(window);
        Ok(Settings { set, multiply, read, write, beat, save, spacing, window, period })
    }

    /// The ticks of a record as a step; a test's for the kinds that hold one.
    #[inline]
    pub(crate) fn ticks(&self, record: &Record) -> u32 {
        match record.kind {
            Kind::Skip => record.count,
            Kind::Set if record.multiplies() => self.multiply,
            Kind::Set => self.set,
            Kind::Read => self.read,
            Kind::Write => self.write,
            Kind::Beat => self.beat,
            Kind::Save => self.save,
            Kind::If | Kind::While | Kind::Times | Kind::Check => 1,
            Kind::Else | Kind::End => 0,
        }
    }

    /// A window must hold both commands and the longest step, or a step could wait for ever.
    pub(crate) fn window_fits(&self) -> bool {
        let longest = self.set.max(self.multiply).max(self.read).max(self.write);
        self.window >= self.beat + self.save + longest
    }
}
