//! What the paper says of a single call of the watcher, whichever
//! implementation made it.

use crate::call::{Answer, Call, Health, Kind, Lent, Outcome};
use crate::paper::hold;

/// The numbers of an entry, the most entries and the largest value of a beat.
pub const ENTRY: usize = 3;
pub const MOST_ENTRIES: usize = 32;
pub const MOST_VALUE: u32 = 1_000_000;

/// The healths that a call may answer. After a beat that is heard the count is
/// 0 or more, and after a reset an entry waits.
pub fn possible_health(kind: Kind) -> &'static [Health] {
    match kind {
        Kind::Beat => &[Health::Well, Health::Failed],
        Kind::Reset => &[Health::Waiting],
        Kind::Look | Kind::Status => &Health::ALL,
        _ => &[],
    }
}

pub fn check(call: &Call, outcome: &Outcome) -> Result<(), String> {
    let good = good(call);
    match outcome.answer {
        Answer::Refused { number, value } => {
            hold(outcome.lent == call.lent, "a refusal leaves all as it was")?;
            let alone = number == 13 && value.is_none();
            hold(alone, "the watcher refuses by 13, the number alone")?;
            hold(!good, "a good call of the watcher is not refused")
        }
        Answer::Watched { health, left } => {
            hold(good, "a bad call of the watcher is refused")?;
            finished(call, &outcome.lent, health, left)
        }
        _ => hold(false, "an answer is of the call's kind"),
    }
}

/// Whether row 13 of the table has no cause here.
fn good(call: &Call) -> bool {
    let length = call.lent.table.len();
    let entries = length / ENTRY;
    let number = match call.kind {
        Kind::Beat => call.number <= MOST_VALUE,
        Kind::Reset => call.number > 0,
        _ => true,
    };
    let whole = length.is_multiple_of(ENTRY) && entries <= MOST_ENTRIES;
    whole && number && (call.entry as usize) < entries
}

fn finished(call: &Call, after: &Lent, health: Health, left: u32) -> Result<(), String> {
    let before = &call.lent;
    let at = ENTRY * call.entry as usize;
    let (was, is) = (entry(&before.table, at), entry(&after.table, at));
    let mut others = before.clone();
    others.table[at..at + ENTRY].copy_from_slice(&is);
    hold(others == *after, "only the entry itself is changed")?;
    let said = possible_health(call.kind).contains(&health);
    hold(said, "a health is one that the call can leave")?;
    hold(health == told(is), "the health is what the numbers tell")?;
    hold(left == is[0], "the count is the one in the table")?;
    let sound = match call.kind {
        Kind::Reset => is == [2, call.number, 1],
        Kind::Beat if told(was) != Health::Failed => is == [call.number + 2, was[1], 0],
        Kind::Look if matches!(told(was), Health::Well | Health::Suspect) => {
            is == [was[0] - 1, was[1], 0]
        }
        _ => is == was,
    };
    hold(sound, "an entry is left as its event says")
}

fn entry(table: &[u32], at: usize) -> [u32; ENTRY] {
    [table[at], table[at + 1], table[at + 2]]
}

fn told([left, _, waits]: [u32; ENTRY]) -> Health {
    match (waits, left) {
        (1.., _) => Health::Waiting,
        (0, 2..) => Health::Well,
        (0, 1) => Health::Suspect,
        (0, 0) => Health::Failed,
    }
}
