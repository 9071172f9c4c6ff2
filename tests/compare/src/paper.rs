//! What the paper says of a single call by itself, whichever implementation
//! made it.

use crate::call::{Answer, Call, Kind, Lent, Outcome};
use crate::records::{number, period_place, MOST_BYTES, SAVE};
use crate::watched;

/// The first statement that an outcome breaks.
pub fn broken(call: &Call, outcome: &Outcome) -> Option<String> {
    let checked = inside(outcome).and_then(|()| match outcome.answer {
        _ if call.kind.watches() => watched::check(call, outcome),
        Answer::Refused { number, value } => refused(call, &outcome.lent, number, value),
        _ => finished(call, outcome),
    });
    checked.err()
}

pub fn hold(statement: bool, what: &str) -> Result<(), String> {
    if statement {
        Ok(())
    } else {
        Err(what.to_string())
    }
}

fn inside(outcome: &Outcome) -> Result<(), String> {
    hold(outcome.stayed_inside, "only the lent buffers are written")?;
    hold(outcome.answer != Answer::Panicked, "a call answers")
}

/// The refusals whose causes a call has inputs for.
pub fn possible(kind: Kind) -> &'static [u8] {
    match kind {
        Kind::Time => &[1, 2, 3, 4, 5, 6, 8],
        Kind::Equalise => &[1, 2, 3, 4, 5, 6, 8, 9],
        Kind::LayOut | Kind::Prepare => &[1, 2, 3, 4, 5, 6, 7, 8, 9],
        Kind::Run | Kind::Restart => &[1, 2, 3, 4, 5, 6, 8, 10],
        Kind::RunUntil => &[1, 2, 3, 4, 5, 6, 8, 10, 12],
        Kind::Resume => &[1, 2, 3, 4, 5, 6, 8, 10, 11],
        Kind::Beat | Kind::Look | Kind::Reset | Kind::Status => &[13],
    }
}

fn refused(call: &Call, lent: &Lent, number: u8, value: Option<u64>) -> Result<(), String> {
    hold(*lent == call.lent, "a refusal leaves all as it was")?;
    hold(
        possible(call.kind).contains(&number),
        "a refusal has a cause that the call has inputs for",
    )?;
    let length = call.file.len() as u64;
    let sound = match (number, value) {
        (1, Some(bytes)) => bytes == length,
        (4, Some(index)) => index <= length / 12,
        (2 | 3 | 5, Some(index)) => index < length / 12,
        (number, None) => number > 5,
        _ => false,
    };
    hold(sound, "a refusal returns what its row says")
}

fn finished(call: &Call, outcome: &Outcome) -> Result<(), String> {
    let (before, after) = (&call.lent, &outcome.lent);
    hold(before.inputs == after.inputs, "inputs stay as they are")?;
    let period = number(call.settings, period_place(call.settings));
    match (call.kind, &outcome.answer) {
        (Kind::Time, Answer::Time(time)) => {
            hold(before == after, "timing writes nothing")?;
            hold(*time <= period, "a time answered is within the period")
        }
        (kind, &Answer::Written { bytes, time }) if kind.writes() => {
            hold(time <= period, "a time answered is within the period")?;
            written(before, after, bytes)
        }
        (Kind::Run, Answer::Ended { tick, .. }) => {
            hold(*tick <= period, "a run ends within the period")?;
            ended(before, after)?;
            outputs(after)
        }
        (Kind::Resume | Kind::Restart, Answer::Ended { .. }) => ended(before, after),
        (Kind::RunUntil, &Answer::Stopped { tick, saved }) => {
            hold(tick == call.stop, "a stopped run answers the stop tick")?;
            outputs(after)?;
            stopped(call, after, saved)
        }
        _ => hold(false, "an answer is of the call's kind"),
    }
}

fn written(before: &Lent, after: &Lent, bytes: usize) -> Result<(), String> {
    hold(
        bytes.is_multiple_of(12) && bytes <= after.out.len() && bytes <= MOST_BYTES,
        "a result is whole records within the buffer and the limit",
    )?;
    hold(
        before.out[bytes..] == after.out[bytes..],
        "a result leaves the bytes after it untouched",
    )?;
    let unused = Lent {
        out: before.out.clone(),
        ..after.clone()
    };
    hold(*before == unused, "only the output buffer is written")
}

fn ended(before: &Lent, after: &Lent) -> Result<(), String> {
    hold(
        before.image == after.image && before.out == after.out,
        "only a stopped run writes an image",
    )
}

/// A run not taken up first sets all levels and marks to 0.
fn outputs(after: &Lent) -> Result<(), String> {
    let mut ports = after.levels.iter().zip(&after.marks);
    hold(
        ports.all(|(&level, &mark)| mark == 1 || (mark == 0 && level == 0)),
        "a mark is 1, or 0 with level 0",
    )
}

fn stopped(call: &Call, after: &Lent, saved: bool) -> Result<(), String> {
    hold(call.lent.out == after.out, "a stopped run writes no file")?;
    if !saved {
        return hold(
            call.lent.image == after.image,
            "with no finished SAVE the image buffer is untouched",
        );
    }
    let (index, tick) = (number(&after.image, 0), number(&after.image, 4));
    hold(tick <= call.stop, "an image's SAVE ended by the stop")?;
    let before_index = (index as usize).checked_sub(1);
    let kind = before_index.and_then(|save| call.file.get(12 * save));
    hold(kind == Some(&SAVE), "an image's index is just after a SAVE")
}
