//! Laying out: one walk over the equalised file unrolls it on the clock and
//! notes where sides must be filled; a second walk over the laid records
//! puts the filling in.

use crate::program::Program;
use crate::record::{Kind, Record};
use crate::settings::Settings;
use crate::tape::Tape;
use crate::Refused;

/// A clock with the records laid up to its tick.
struct Layout<'a> {
    settings: &'a Settings,
    tick: u32,
    tape: Tape,
}

/// Filling due before the laid record `before`, an ELSE or END.
struct Fill {
    before: usize,
    from: u32,
    to: u32,
}

/// A block open in the walk.
enum Open {
    /// An IF: where its sides start, where its first side ended, and the
    /// number of that side's filling.
    Sides { start: u32, first: u32, fill: usize },
    /// A TIMES and its rounds not yet finished.
    Rounds { left: u32 },
}

impl<'a> Layout<'a> {
    fn new(settings: &'a Settings, bytes: usize) -> Layout<'a> {
        Layout { settings, tick: 0, tape: Tape::new(bytes) }
    }

    /// Lays the commands due at this tick, if any, and answers the ticks
    /// left to the next multiple of the window.
    #[inline]
    fn ready(&mut self) -> u32 {
        let window = self.settings.window;
        let past = self.tick % window;
        if past != 0 {
            return window - past;
        }
        let saves = u64::from(self.tick).is_multiple_of(self.settings.spacing);
        let mut used = self.settings.beat;
        self.tape.push(Record::beat(1));
        if saves {
            self.tape.push(Record::bare(Kind::Save));
            used += self.settings.save;
        }
        self.tick += used;
        window - used
    }

    /// Lays one step whole; where the window's rest is too short it waits.
    #[inline]
    fn step(&mut self, record: Record) {
        let ticks = self.settings.ticks(&record);
        let left = self.ready();
        if ticks > left {
            self.tape.skip(left);
            self.tick += left;
            self.ready();
        }
        self.tape.push(record);
        self.tick += ticks;
    }

    /// Lays single ticks of SKIP, the commands on the way between them. Where
    /// a window has few ticks beside its commands a SKIP could outlast any
    /// number, so it ends once the clock is above the period.
    fn skip(&mut self, mut ticks: u32) {
        while ticks > 0 && self.tick <= self.settings.period {
            let part = self.ready().min(ticks);
            self.tape.skip(part);
            self.tick += part;
            ticks -= part;
        }
    }

    /// Fills up to `to`, an end reached past the same commands, which
    /// therefore never lies within them. A tape that is over needs no more.
    fn fill(&mut self, from: u32, to: u32) {
        self.tick = from;
        while self.tick < to && !self.tape.over {
            let left = self.ready();
            let part = left.min(to.saturating_sub(self.tick));
            self.tape.skip(part);
            self.tick += part;
        }
    }

    /// The SKIPs to the next multiple of the window and the last BEAT.
    fn finish(&mut self) -> Result<u32, Refused> {
        let Settings { window, period, beat, .. } = *self.settings;
        let rest = self.tick.next_multiple_of(window) - self.tick;
        self.tape.skip(rest);
        let total = self.tick + rest + beat;
        if total > period {
            return Err(Refused::plain(8));
        }
        self.tape.push(Record::beat((period - total).div_ceil(window)));
        Ok(total)
    }
}

/// The walk that unrolls: the records laid, the filling still due in them
/// and the blocks open.
struct Walk<'a> {
    file: &'a Program,
    laid: Layout<'a>,
    fills: Vec<Fill>,
    open: Vec<Open>,
}

impl Walk<'_> {
    /// Lays every record in turn. Once the clock is above the period the
    /// total will be too, so the walk's length is bounded.
    fn run(&mut self) -> Result<(), Refused> {
        let mut at = 0;
        while let Some(&record) = self.file.records.get(at) {
            if self.laid.tick > self.laid.settings.period {
                return Err(Refused::plain(8));
            }
            match record.kind {
                Kind::Skip => self.laid.skip(record.count),
                Kind::If => self.open_sides(record),
                Kind::Else => self.turn_side(record),
                Kind::Times => self.open_rounds(at, record.count),
                Kind::End => at = self.close(at, record),
                _ => self.laid.step(record),
            }
            at += 1;
        }
        Ok(())
    }

    fn open_sides(&mut self, test: Record) {
        self.laid.step(test);
        let start = self.laid.tick;
        self.open.push(Open::Sides { start, first: start, fill: 0 });
    }

    /// Ends the first side and turns the clock back for the second.
    fn turn_side(&mut self, record: Record) {
        let tick = self.laid.tick;
        let number = self.fills.len();
        self.note_fill(tick);
        if let Some(Open::Sides { start, first, fill }) = self.open.last_mut() {
            *first = tick;
            *fill = number;
            self.laid.tick = *start;
        }
        self.laid.tape.push(record);
    }

    /// Notes filling from `from` before the next record; its end is not yet
    /// known. A tape that is over keeps no records and needs no filling.
    fn note_fill(&mut self, from: u32) {
        if !self.laid.tape.over {
            let before = self.laid.tape.records.len();
            self.fills.push(Fill { before, from, to: from });
        }
    }

    /// Begins the rounds. An empty body adds nothing in any round, so its
    /// first round stands for all.
    fn open_rounds(&mut self, at: usize, count: u32) {
        let empty = self.file.mate(at) == at + 1;
        let left = if empty { 1 } else { count };
        self.open.push(Open::Rounds { left });
    }

    /// Closes a side or a round at the END `at`; answers the record to go on after.
    fn close(&mut self, at: usize, record: Record) -> usize {
        let part = self.file.mate(at);
        match self.open.last_mut() {
            Some(Open::Rounds { left }) if *left > 1 => {
                *left -= 1;
                return part;
            }
            Some(Open::Rounds { .. }) => {
                let test = self.file.records[part];
                self.laid.step(test.test_as(Kind::Check, 0));
            }
            Some(&mut Open::Sides { first, fill, .. }) => {
                self.meet(first, fill);
                self.laid.tape.push(record);
            }
            None => {}
        }
        self.open.pop();
        at
    }

    /// Both sides go on from the end of the later.
    fn meet(&mut self, first: u32, fill: usize) {
        let second = self.laid.tick;
        let to = first.max(second);
        if let Some(fill) = self.fills.get_mut(fill) {
            fill.to = to;
        }
        if second < to {
            self.note_fill(second);
            if let Some(fill) = self.fills.last_mut() {
                fill.to = to;
            }
        }
        self.laid.tick = to;
    }
}

/// Lays out an equalised file for a buffer of this many bytes; answers the
/// laid records and the total.
pub(crate) fn lay_out(
    settings: &Settings,
    file: &Program,
    bytes: usize,
) -> Result<(Tape, u32), Refused> {
    let mut walk = Walk {
        file,
        laid: Layout::new(settings, bytes),
        fills: Vec::new(),
        open: Vec::with_capacity(16),
    };
    walk.laid.ready();
    walk.run()?;
    let total = walk.laid.finish()?;
    if walk.laid.tape.over {
        return Ok((walk.laid.tape, total));
    }
    let laid = &walk.laid.tape.records;
    let mut full = Layout::new(settings, bytes);
    let mut done = 0;
    for fill in &walk.fills {
        full.tape.append(&laid[done..fill.before]);
        full.fill(fill.from, fill.to);
        done = fill.before;
    }
    full.tape.append(&laid[done..]);
    Ok((full.tape, total))
}
