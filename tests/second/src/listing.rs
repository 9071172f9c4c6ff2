//! What the list program prints.

use std::fmt::Write;

use crate::program::{Program, MOST_RECORDS};
use crate::record::{Kind, Record, SIZE};
use crate::settings::Settings;
use crate::{Form, Refused};

/// The lines for a task, or the refusal that stood in the way.
pub(crate) fn list(settings: &[u8], task: &[u8]) -> Result<String, Refused> {
    let mut laid = vec![0; MOST_RECORDS * SIZE];
    let written = crate::prepare(settings, task, &mut laid)?;
    let settings = Settings::read(settings)?;
    let program = Program::read(Form::Laid, &laid[..written.bytes])?;
    Ok(lines(&settings, &program, written.time))
}

fn lines(settings: &Settings, laid: &Program, total: u32) -> String {
    let mut text = String::with_capacity(laid.records.len() * 16);
    // Of each open IF, where its sides start and where its first side ended.
    let mut open: Vec<(u32, u32)> = Vec::with_capacity(16);
    let mut tick = 0;
    for record in &laid.records {
        match record.kind {
            Kind::Else => {
                if let Some((start, first)) = open.last_mut() {
                    *first = tick;
                    tick = *start;
                }
            }
            Kind::End => {
                let (_, first) = open.pop().unwrap_or_default();
                tick = tick.max(first);
            }
            _ => {}
        }
        line(&mut text, tick, record);
        tick += settings.ticks(record);
        if record.kind == Kind::If {
            open.push((tick, tick));
        }
    }
    // Writing to a string cannot fail.
    let _ = writeln!(text, "{total} end");
    text
}

fn line(text: &mut String, tick: u32, record: &Record) {
    let Record { one, two, three, value, count, .. } = *record;
    let name = record.kind.name();
    let _ = match record.kind {
        Kind::Beat => writeln!(text, "{tick} {name} {value}"),
        Kind::Skip => writeln!(text, "{tick} {name} {count}"),
        Kind::Read | Kind::Write => writeln!(text, "{tick} {name} {two} {three}"),
        Kind::Else | Kind::End | Kind::Save => writeln!(text, "{tick} {name}"),
        _ => writeln!(text, "{tick} {name} {one} {two} {three} {value}"),
    };
}
