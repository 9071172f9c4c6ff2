//! A file read and checked, and its time.

use crate::record::{Kind, Record, SIZE};
use crate::settings::Settings;
use crate::{Form, Refused};

/// The most records of an equalised or laid file.
pub(crate) const MOST_RECORDS: usize = 5_461;
const MOST_TASK_RECORDS: usize = 256;

pub(crate) struct Program {
    pub records: Vec<Record>,
    /// Where parts join: IF to its ELSE, ELSE to its END, a loop to its END,
    /// and END back to its ELSE or loop. 0 for all other records.
    pub mates: Vec<u32>,
}

impl Program {
    pub(crate) fn read(form: Form, file: &[u8]) -> Result<Program, Refused> {
        let (most, deepest) = match form {
            Form::Task => (MOST_TASK_RECORDS, 8),
            Form::Equalised | Form::Laid => (MOST_RECORDS, 16),
        };
        let (whole, rest) = file.as_chunks::<SIZE>();
        if !rest.is_empty() || whole.len() > most {
            return Err(Refused::at(1, file.len()));
        }
        let mut program =
            Program { records: Vec::with_capacity(whole.len()), mates: vec![0; whole.len()] };
        let mut open = Vec::with_capacity(deepest);
        for (at, bytes) in whole.iter().enumerate() {
            let kind = Kind::of(bytes[0], form).ok_or(Refused::at(2, at))?;
            let record = Record::decode(kind, bytes);
            if !record.fields_good() {
                return Err(Refused::at(3, at));
            }
            program.records.push(record);
            program.place(at, deepest, &mut open)?;
        }
        if !open.is_empty() {
            return Err(Refused::at(4, whole.len()));
        }
        Ok(program)
    }

    /// Fits the newest record into the blocks open at it. `open` holds where
    /// the innermost part of each block began: its IF, ELSE or loop.
    fn place(&mut self, at: usize, deepest: usize, open: &mut Vec<usize>) -> Result<(), Refused> {
        let inner = open.last().map(|&part| (part, self.records[part].kind));
        match (self.records[at].kind, inner) {
            (Kind::Else, Some((part, Kind::If))) => {
                self.mates[part] = at as u32;
                open.pop();
                open.push(at);
            }
            (Kind::Else, _) | (Kind::End, None | Some((_, Kind::If))) => {
                return Err(Refused::at(4, at));
            }
            (Kind::End, Some((part, _))) => {
                self.mates[part] = at as u32;
                self.mates[at] = part as u32;
                open.pop();
            }
            (Kind::If | Kind::While | Kind::Times, _) => {
                if open.len() == deepest {
                    return Err(Refused::at(5, at));
                }
                open.push(at);
            }
            _ => {}
        }
        Ok(())
    }

    pub(crate) fn mate(&self, at: usize) -> usize {
        self.mates[at] as usize
    }

    /// The file's time, or refusal 8 where it is above the period.
    pub(crate) fn time(&self, settings: &Settings) -> Result<u32, Refused> {
        self.time_noting(settings, |_| {})
    }

    /// As `time`, telling of each block as it closes. Times stop at the
    /// largest number instead of wrapping; that is above any period.
    pub(crate) fn time_noting(
        &self,
        settings: &Settings,
        mut note: impl FnMut(Closed),
    ) -> Result<u32, Refused> {
        let mut open: Vec<Opened> = Vec::with_capacity(16);
        let mut sum = 0u64;
        for (at, record) in self.records.iter().enumerate() {
            match record.kind {
                Kind::If | Kind::While | Kind::Times => {
                    open.push(Opened { before: sum, first: 0 });
                    sum = 0;
                }
                Kind::Else => {
                    if let Some(block) = open.last_mut() {
                        block.first = sum;
                    }
                    sum = 0;
                }
                Kind::End => {
                    let block = open.pop().unwrap_or_default();
                    let part = self.mate(at);
                    note(Closed { part, end: at, first: block.first, last: sum });
                    sum = block.close(&self.records[part], sum);
                }
                _ => sum = sum.saturating_add(settings.ticks(record).into()),
            }
        }
        match u32::try_from(sum) {
            Ok(time) if time <= settings.period => Ok(time),
            _ => Err(Refused::plain(8)),
        }
    }
}

/// A block that just closed: where its last part began, its END, and the
/// times of an IF's first side (0 for a loop) and of its last part.
pub(crate) struct Closed {
    pub part: usize,
    pub end: usize,
    pub first: u64,
    pub last: u64,
}

/// A block still open: the time before it and that of an IF's first side.
#[derive(Default)]
struct Opened {
    before: u64,
    first: u64,
}

impl Opened {
    /// The time up to and with this block, whose last part began at `part`.
    fn close(&self, part: &Record, last: u64) -> u64 {
        let rounds = u64::from(part.count);
        let inside = match part.kind {
            Kind::While => rounds.saturating_mul(last.saturating_add(1)),
            Kind::Times => rounds.saturating_mul(last),
            _ => self.first.max(last),
        };
        self.before.saturating_add(inside).saturating_add(1)
    }
}
