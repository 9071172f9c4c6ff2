//! Prints a call with all its inputs, so that it can be made again by hand.

use crate::call::{Call, Kind, Lent, Outcome};
use crate::random::PATTERN;

pub fn hex(bytes: &[u8]) -> String {
    bytes.iter().map(|byte| format!("{byte:02x}")).collect()
}

fn words(values: &[u32]) -> String {
    let words: Vec<String> = values.iter().map(|value| format!("{value:x}")).collect();
    words.join(" ")
}

pub fn print_call(what: &str, call: &Call, first: &Outcome, second: &Outcome) {
    println!("  {:?}: {what}", call.kind);
    if call.kind.watches() {
        println!("  entry {} value or window {}", call.entry, call.number);
    } else {
        println!("  settings {}", hex(call.settings));
        println!("  form {} file {}", call.form, hex(call.file));
    }
    if call.kind == Kind::RunUntil {
        println!("  stop {}", call.stop);
    }
    print_lent("lent", call.kind, &call.lent);
    println!("  first {:?}", first.answer);
    println!("  second {:?}", second.answer);
    if first.lent == second.lent {
        print_lent("left by both", call.kind, &first.lent);
    } else {
        print_lent("left by the first", call.kind, &first.lent);
        print_lent("left by the second", call.kind, &second.lent);
    }
}

/// An output buffer is printed up to where its noise only repeats.
fn print_out(title: &str, out: &[u8]) {
    let repeats = |from: &usize| {
        let rest = &out[*from..];
        rest.iter()
            .zip(&rest[PATTERN.min(rest.len())..])
            .all(|(a, b)| a == b)
    };
    let from = (0..out.len()).find(repeats).unwrap_or(0);
    let shown = out.len().min(from + PATTERN);
    let length = out.len();
    println!(
        "  {title}: out of {length} bytes, then repeating, {}",
        hex(&out[..shown])
    );
}

fn print_lent(title: &str, kind: Kind, lent: &Lent) {
    if kind == Kind::Time {
        return;
    }
    if kind.watches() {
        println!("  {title}: table {}", words(&lent.table));
        return;
    }
    if kind.writes() {
        print_out(title, &lent.out);
        return;
    }
    println!("  {title}: variables {}", words(&lent.variables));
    println!("  {title}: inputs {}", words(&lent.inputs));
    println!("  {title}: levels {}", words(&lent.levels));
    println!("  {title}: marks {}", hex(&lent.marks));
    if matches!(kind, Kind::RunUntil | Kind::Resume) {
        println!("  {title}: image {}", hex(&lent.image));
    }
}
