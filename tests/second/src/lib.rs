//! The rack task preparer: times a task, equalises it, lays it out on the
//! window with its commands, runs each form by ticks, and watches for beats
//! that stay away.

mod equal;
mod layout;
mod listing;
mod machine;
mod program;
mod record;
mod settings;
mod tape;
#[cfg(test)]
mod tests;
mod watch;

use machine::{Halt, Image, Machine, State};
use program::Program;
use settings::Settings;
use tape::Tape;
use watch::Event;

/// What a file holds.
#[derive(Clone, Copy, PartialEq, Eq, Debug)]
pub enum Form {
    Task,
    Equalised,
    Laid,
}

/// Why a call was turned down: the cause's number, with the length in bytes
/// for 1 and the record index for 2 to 5.
#[derive(Clone, Copy, PartialEq, Eq, Debug)]
pub struct Refused {
    pub number: u8,
    pub value: Option<u64>,
}

impl Refused {
    fn plain(number: u8) -> Refused {
        Refused { number, value: None }
    }

    fn at(number: u8, value: usize) -> Refused {
        Refused { number, value: Some(value as u64) }
    }
}

/// The bytes written, and the time or, of a laid file, the total.
#[derive(Clone, Copy, PartialEq, Eq, Debug)]
pub struct Written {
    pub bytes: usize,
    pub time: u32,
}

/// Where a run ended and whether it overran.
#[derive(Clone, Copy, PartialEq, Eq, Debug)]
pub struct Ended {
    pub tick: u32,
    pub overran: bool,
}

/// A BEAT that a run made: the tick at its end, and its value.
#[derive(Clone, Copy, PartialEq, Eq, Debug)]
pub struct Beat {
    pub end: u32,
    pub value: u32,
}

/// Where a run was stopped and whether an image was written.
#[derive(Clone, Copy, PartialEq, Eq, Debug)]
pub struct Stopped {
    pub tick: u32,
    pub saved: bool,
}

/// What is known of a watched controller.
#[derive(Clone, Copy, PartialEq, Eq, Debug)]
pub enum Health {
    Waiting,
    Well,
    Suspect,
    Failed,
}

/// An entry after a call: its health, and its count plus 2.
#[derive(Clone, Copy, PartialEq, Eq, Debug)]
pub struct Watched {
    pub health: Health,
    pub left: u32,
}

/// The settings and the file, checked for all but times.
fn read(settings: &[u8], form: Form, file: &[u8]) -> Result<(Settings, Program), Refused> {
    let settings = Settings::read(settings)?;
    let program = Program::read(form, file)?;
    Ok((settings, program))
}

/// As `read`, for a file that must also end within the period.
fn read_timed(settings: &[u8], form: Form, file: &[u8]) -> Result<(Settings, Program), Refused> {
    let (settings, program) = read(settings, form, file)?;
    program.time(&settings)?;
    Ok((settings, program))
}

/// Answers a file's time.
pub fn time_file(settings: &[u8], form: Form, file: &[u8]) -> Result<u32, Refused> {
    let (settings, program) = read(settings, form, file)?;
    program.time(&settings)
}

/// Equalises a task into `out`.
pub fn equalise(settings: &[u8], task: &[u8], out: &mut [u8]) -> Result<Written, Refused> {
    let (settings, program) = read(settings, Form::Task, task)?;
    let mut tape = Tape::new(out.len());
    let time = equal::equalise(&settings, &program, &mut tape)?;
    let bytes = tape.write(out)?;
    Ok(Written { bytes, time })
}

/// Lays an equalised file out into `out`.
pub fn lay_out(settings: &[u8], equalised: &[u8], out: &mut [u8]) -> Result<Written, Refused> {
    let (settings, program) = read(settings, Form::Equalised, equalised)?;
    if !settings.window_fits() {
        return Err(Refused::plain(7));
    }
    program.time(&settings)?;
    let (tape, time) = layout::lay_out(&settings, &program, out.len())?;
    let bytes = tape.write(out)?;
    Ok(Written { bytes, time })
}

/// Equalises a task and lays out what that wrote into `out`.
pub fn prepare(settings: &[u8], task: &[u8], out: &mut [u8]) -> Result<Written, Refused> {
    // A WHILE and its END become six records; nothing else grows as much.
    let mut equalised = vec![0; 3 * task.len()];
    let bytes = equalise(settings, task, &mut equalised)?.bytes;
    lay_out(settings, &equalised[..bytes], out)
}

/// The buffers lent to a run, each of its right length.
struct Lent<'a> {
    variables: &'a mut [u32; 16],
    inputs: &'a [u32; 8],
    levels: &'a mut [u32; 8],
    marks: &'a mut [u8; 8],
}

impl<'a> Lent<'a> {
    fn new(
        variables: &'a mut [u32],
        inputs: &'a [u32],
        levels: &'a mut [u32],
        marks: &'a mut [u8],
    ) -> Result<Lent<'a>, Refused> {
        let wrong = |_| Refused::plain(10);
        Ok(Lent {
            variables: variables.try_into().map_err(|_| Refused::plain(10))?,
            inputs: inputs.try_into().map_err(wrong)?,
            levels: levels.try_into().map_err(wrong)?,
            marks: marks.try_into().map_err(wrong)?,
        })
    }

    /// The state of a run that first sets all outputs to 0.
    fn cleared(&self) -> State {
        State { variables: *self.variables, levels: [0; 8], marks: [0; 8] }
    }

    /// The state of a run taken up, its outputs as they are.
    fn kept(&self) -> State {
        State { variables: *self.variables, levels: *self.levels, marks: *self.marks }
    }

    fn show(self, state: &State) {
        *self.variables = state.variables;
        *self.levels = state.levels;
        *self.marks = state.marks;
    }

    /// Runs to the end; a machine without a stop tick cannot be stopped.
    fn finish(self, mut machine: Machine) -> Result<Ended, Refused> {
        match machine.run() {
            Halt::Ended(ended) => {
                self.show(&machine.state);
                Ok(ended)
            }
            Halt::Stopped => Err(Refused::plain(12)),
        }
    }
}

/// Runs a file from its start to its end.
pub fn run(
    settings: &[u8],
    form: Form,
    file: &[u8],
    variables: &mut [u32],
    inputs: &[u32],
    levels: &mut [u32],
    marks: &mut [u8],
) -> Result<Ended, Refused> {
    let (settings, program) = read_timed(settings, form, file)?;
    let lent = Lent::new(variables, inputs, levels, marks)?;
    let machine = Machine::new(&program, &settings, lent.inputs, lent.cleared());
    lent.finish(machine)
}

/// The BEATs of a run from the start of a file to its end, and that end.
pub fn beats(
    settings: &[u8],
    form: Form,
    file: &[u8],
    variables: &[u32],
    inputs: &[u32],
) -> Result<(Vec<Beat>, Ended), Refused> {
    let (settings, program) = read_timed(settings, form, file)?;
    let (mut variables, mut levels, mut marks) = (variables.to_vec(), [0; 8], [0; 8]);
    let lent = Lent::new(&mut variables, inputs, &mut levels, &mut marks)?;
    let mut machine = Machine::new(&program, &settings, lent.inputs, lent.cleared());
    machine.beats = Some(Vec::new());
    match machine.run() {
        Halt::Ended(ended) => Ok((machine.beats.unwrap_or_default(), ended)),
        Halt::Stopped => Err(Refused::plain(12)),
    }
}

/// Runs a file from its start and stops it at tick `stop`, before its end.
#[allow(clippy::too_many_arguments)]
pub fn run_until(
    settings: &[u8],
    form: Form,
    file: &[u8],
    variables: &mut [u32],
    inputs: &[u32],
    levels: &mut [u32],
    marks: &mut [u8],
    image: &mut [u8],
    stop: u32,
) -> Result<Stopped, Refused> {
    let (settings, program) = read_timed(settings, form, file)?;
    let lent = Lent::new(variables, inputs, levels, marks)?;
    Image::sized(image)?;
    let mut machine = Machine::new(&program, &settings, lent.inputs, lent.cleared());
    machine.stop_at(stop);
    match machine.run() {
        Halt::Ended(_) => Err(Refused::plain(12)),
        Halt::Stopped => {
            lent.show(&machine.state);
            if let Some(saved) = &machine.saved {
                saved.write(image);
            }
            Ok(Stopped { tick: stop, saved: machine.saved.is_some() })
        }
    }
}

/// Takes up a stopped run from its image and runs it to the end.
#[allow(clippy::too_many_arguments)]
pub fn resume(
    settings: &[u8],
    form: Form,
    file: &[u8],
    variables: &mut [u32],
    inputs: &[u32],
    levels: &mut [u32],
    marks: &mut [u8],
    image: &[u8],
) -> Result<Ended, Refused> {
    let (settings, program) = read_timed(settings, form, file)?;
    let lent = Lent::new(variables, inputs, levels, marks)?;
    let image = Image::read(image, &program, &settings)?;
    let mut machine = Machine::new(&program, &settings, lent.inputs, lent.kept());
    machine.take_up(&image);
    lent.finish(machine)
}

/// Takes up a stopped run that has no image: from the start, with the first
/// variables and the outputs as the stop left them.
pub fn restart(
    settings: &[u8],
    form: Form,
    file: &[u8],
    variables: &mut [u32],
    inputs: &[u32],
    levels: &mut [u32],
    marks: &mut [u8],
) -> Result<Ended, Refused> {
    let (settings, program) = read_timed(settings, form, file)?;
    let lent = Lent::new(variables, inputs, levels, marks)?;
    let machine = Machine::new(&program, &settings, lent.inputs, lent.kept());
    lent.finish(machine)
}

/// A BEAT of this value has ended.
pub fn beat(table: &mut [u32], entry: u32, value: u32) -> Result<Watched, Refused> {
    watch::happen(table, entry, Event::Beat(value))
}

/// A window has passed.
pub fn look(table: &mut [u32], entry: u32) -> Result<Watched, Refused> {
    watch::happen(table, entry, Event::Look)
}

/// An entry begins anew, with this window.
pub fn reset(table: &mut [u32], entry: u32, window: u32) -> Result<Watched, Refused> {
    watch::happen(table, entry, Event::Reset(window))
}

/// What an entry is, with nothing changed.
pub fn status(table: &[u32], entry: u32) -> Result<Watched, Refused> {
    watch::tell(table, entry)
}

/// What the list program prints for a task, each line ended.
pub fn list(settings: &[u8], task: &[u8]) -> String {
    match listing::list(settings, task) {
        Ok(lines) => lines,
        Err(refused) => format!("refused {}\n", refused.number),
    }
}
