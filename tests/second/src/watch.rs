//! The watcher of the spare box: what a beat, a look and a reset make of one
//! watched controller, and the table that holds it.

use crate::{Health, Refused, Watched};

/// The numbers of an entry in a lent table.
const NUMBERS: usize = 3;
const MOST_ENTRIES: usize = 32;
const MOST_VALUE: u32 = 1_000_000;

/// A lent table holds counts as natural numbers: failed, −2, is 0 there.
const BELOW: i64 = 2;

/// One watched controller.
struct Controller {
    health: Health,
    count: i64,
    window: u32,
    /// What the table says while it waits; any number but 0 does.
    waits: u32,
}

impl Controller {
    fn read(numbers: &[u32; NUMBERS]) -> Controller {
        let [left, window, waits] = *numbers;
        let count = i64::from(left) - BELOW;
        let health = if waits == 0 { told_by(count) } else { Health::Waiting };
        Controller { health, count, window, waits }
    }

    fn write(&self, numbers: &mut [u32; NUMBERS]) {
        let waits = if self.health == Health::Waiting { self.waits } else { 0 };
        *numbers = [self.left(), self.window, waits];
    }

    /// Never out of range: a count is at least −2 and was read from a number
    /// or is a beat's value.
    fn left(&self) -> u32 {
        u32::try_from(self.count + BELOW).expect("a count fits its place")
    }

    /// Failed holds until reset; any other hears the beat.
    fn beat(&mut self, value: u32) {
        if self.health != Health::Failed {
            self.counts(value.into());
        }
    }

    fn look(&mut self) {
        match self.health {
            Health::Waiting | Health::Failed => {}
            Health::Well | Health::Suspect => self.counts(self.count - 1),
        }
    }

    fn reset(&mut self, window: u32) {
        *self = Controller { health: Health::Waiting, count: 0, window, waits: 1 };
    }

    fn counts(&mut self, count: i64) {
        self.count = count;
        self.health = told_by(count);
    }
}

/// What the count of an entry that no longer waits tells.
fn told_by(count: i64) -> Health {
    match count {
        0.. => Health::Well,
        -1 => Health::Suspect,
        _ => Health::Failed,
    }
}

/// What happens to an entry.
pub(crate) enum Event {
    Beat(u32),
    Look,
    Reset(u32),
}

impl Event {
    /// Whether its value or its new window may be.
    fn good(&self) -> bool {
        match *self {
            Event::Beat(value) => value <= MOST_VALUE,
            Event::Look => true,
            Event::Reset(window) => window != 0,
        }
    }
}

/// Lets an event happen to an entry of a table.
pub(crate) fn happen(table: &mut [u32], entry: u32, event: Event) -> Result<Watched, Refused> {
    let at = place(table, entry)?;
    if !event.good() {
        return Err(Refused::plain(13));
    }
    let (entries, _) = table.as_chunks_mut();
    let mut controller = Controller::read(&entries[at]);
    match event {
        Event::Beat(value) => controller.beat(value),
        Event::Look => controller.look(),
        Event::Reset(window) => controller.reset(window),
    }
    controller.write(&mut entries[at]);
    Ok(Watched { health: controller.health, left: controller.left() })
}

/// What an entry of a table is.
pub(crate) fn tell(table: &[u32], entry: u32) -> Result<Watched, Refused> {
    let at = place(table, entry)?;
    let (entries, _) = table.as_chunks();
    let controller = Controller::read(&entries[at]);
    Ok(Watched { health: controller.health, left: controller.left() })
}

/// Where an entry stands; 13 for a table that is none or is too long, and
/// for an entry that is not in it.
fn place(table: &[u32], entry: u32) -> Result<usize, Refused> {
    let (entries, rest) = table.as_chunks::<NUMBERS>();
    let within = |at: &usize| *at < entries.len();
    let at = usize::try_from(entry).ok().filter(within);
    match at {
        Some(at) if rest.is_empty() && entries.len() <= MOST_ENTRIES => Ok(at),
        _ => Err(Refused::plain(13)),
    }
}
