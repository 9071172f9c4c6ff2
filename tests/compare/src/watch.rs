//! A watcher's table that is carried from call to call, and what the paper
//! says of an entry by its whole history.

use crate::call::{Answer, Call, Health, Kind};
use crate::comparer::Comparer;
use crate::watched::ENTRY;

/// An entry that was never reset: it waits, with no window yet.
const FRESH: [u32; ENTRY] = [2, 0, 1];

/// A beat of a value, a look, or a reset with a window.
#[derive(Clone, Copy)]
pub struct Event {
    pub kind: Kind,
    pub entry: u32,
    pub number: u32,
}

pub struct Watch<'a> {
    pub comparer: &'a mut Comparer,
    pub table: Vec<u32>,
}

impl Watch<'_> {
    pub fn fresh(comparer: &mut Comparer, entries: usize) -> Watch<'_> {
        let table = FRESH.repeat(entries);
        Watch { comparer, table }
    }

    /// Makes a call on the table through both, and goes on with what it left.
    pub fn make(&mut self, kind: Kind, entry: u32, number: u32) -> Answer {
        let call = Call::watching(kind, &self.table, entry, number);
        let outcome = self.comparer.call(&call);
        self.table = outcome.lent.table;
        outcome.answer
    }

    pub fn happen(&mut self, event: Event) -> Answer {
        self.make(event.kind, event.entry, event.number)
    }

    /// Makes a call whose answer is known beforehand.
    pub fn expect(&mut self, kind: Kind, entry: u32, number: u32, expected: &Answer) {
        let call = Call::watching(kind, &self.table, entry, number);
        let outcome = self.comparer.call(&call);
        let sound = outcome.answer == *expected;
        if !sound {
            let what = format!("by the events so far {expected:?}");
            self.comparer.hold(sound, &what, &call, &outcome);
        }
        self.table = outcome.lent.table;
    }
}

/// What an entry is after its own events alone, told by the sentences on a
/// silent controller and not event by event.
pub fn told(events: &[Event]) -> Answer {
    let reset = events.iter().rposition(|event| event.kind == Kind::Reset);
    let since = &events[reset.map_or(0, |at| at + 1)..];
    let mut last = None;
    for (at, beat) in since.iter().enumerate() {
        if beat.kind != Kind::Beat {
            continue;
        }
        let looks = since[at + 1..].iter();
        let looks = looks.take_while(|event| event.kind == Kind::Look).count() as u32;
        if looks >= beat.number + 2 {
            return watched(Health::Failed, 0);
        }
        last = Some(beat.number + 2 - looks);
    }
    match last {
        None => watched(Health::Waiting, 2),
        Some(1) => watched(Health::Suspect, 1),
        Some(left) => watched(Health::Well, left),
    }
}

pub fn watched(health: Health, left: u32) -> Answer {
    Answer::Watched { health, left }
}
