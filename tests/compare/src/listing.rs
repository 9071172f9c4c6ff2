//! The list program's text, written from what the first implementation
//! answers and held against the second's.

use crate::call::{Answer, Call, Kind};
use crate::chain::Prepared;
use crate::comparer::Comparer;
use crate::random::Random;
use crate::records::*;

pub fn compare(comparer: &mut Comparer, prepared: &Prepared) {
    let expected = text(prepared);
    hold(comparer, &prepared.settings, &prepared.task, &expected);
}

/// A task that is not laid out prints the refusal's number alone.
pub fn compare_refused(comparer: &mut Comparer, random: &mut Random, settings: &[u8], task: &[u8]) {
    let call = Call::new(Kind::Prepare, settings, TASK, task, random);
    let outcome = comparer.call(&call.with_out(MOST_BYTES, random));
    if let Answer::Refused { number, .. } = outcome.answer {
        hold(comparer, settings, task, &format!("refused {number}\n"));
    }
}

fn hold(comparer: &mut Comparer, settings: &[u8], task: &[u8], expected: &str) {
    let found = second::list(settings, task);
    if found != expected {
        comparer.fault(&format!(
            "listing of {task:02x?} under {settings:02x?}:\n{found}by the paper:\n{expected}"
        ));
    }
}

fn text(prepared: &Prepared) -> String {
    let starts = prepared.walk.starts.iter();
    let lines = starts.zip(records(&prepared.laid)).map(|(start, record)| {
        let (name, numbers) = (name(record[0]), numbers(&record));
        format!("{start} {name}{numbers}\n")
    });
    lines.collect::<String>() + &format!("{} end\n", prepared.total)
}

fn name(kind: u8) -> &'static str {
    match kind {
        SKIP => "SKIP",
        SET => "SET",
        READ => "READ",
        WRITE => "WRITE",
        IF => "IF",
        ELSE => "ELSE",
        END => "END",
        CHECK => "CHECK",
        BEAT => "BEAT",
        _ => "SAVE",
    }
}

fn numbers(record: &Record) -> String {
    let [_, one, two, three, ..] = *record;
    match record[0] {
        BEAT => format!(" {}", number(record, 4)),
        SKIP => format!(" {}", number(record, 8)),
        READ | WRITE => format!(" {two} {three}"),
        SET | IF | CHECK => format!(" {one} {two} {three} {}", number(record, 4)),
        _ => String::new(),
    }
}
