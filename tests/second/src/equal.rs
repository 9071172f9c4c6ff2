//! Equalising: sides of one length, loops of a fixed number of rounds.

use crate::program::Program;
use crate::record::{Kind, Record};
use crate::settings::Settings;
use crate::tape::Tape;
use crate::Refused;

/// Equalises a task onto the tape and answers its time, which stays the same.
pub(crate) fn equalise(
    settings: &Settings,
    task: &Program,
    tape: &mut Tape,
) -> Result<u32, Refused> {
    let (time, pads) = pads(settings, task)?;
    for (at, &record) in task.records.iter().enumerate() {
        match record.kind {
            Kind::Skip => tape.skip(record.count),
            Kind::While => {
                tape.push(record.test_as(Kind::Times, record.count));
                tape.push(record.test_as(Kind::If, 0));
            }
            Kind::Else => {
                tape.skip(pads[at]);
                tape.push(record);
            }
            Kind::End => {
                let of_while = task.records[task.mate(at)].kind == Kind::While;
                if of_while {
                    tape.push(Record::bare(Kind::Else));
                }
                tape.skip(pads[at]);
                tape.push(record);
                if of_while {
                    tape.push(record);
                }
            }
            _ => tape.push(record),
        }
    }
    Ok(time)
}

/// The SKIP ticks due before each ELSE and END. Equalising changes no time,
/// so the task's own times decide them. At a WHILE's END it is the body's
/// time, for the side that stands in for a round not taken.
fn pads(settings: &Settings, task: &Program) -> Result<(u32, Vec<u32>), Refused> {
    let mut pads = vec![0u64; task.records.len()];
    let time = task.time_noting(settings, |block| {
        if task.records[block.part].kind == Kind::Else {
            pads[block.part] = block.last.saturating_sub(block.first);
            pads[block.end] = block.first.saturating_sub(block.last);
        } else {
            pads[block.end] = block.last;
        }
    })?;
    // No part's time is above the whole, which the period bounds.
    Ok((time, pads.into_iter().map(|pad| pad as u32).collect()))
}
