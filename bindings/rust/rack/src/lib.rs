//! The rack task preparer, called from Rust through its static library.
//!
//! Each function lends its slices to one function of `librack.a` for the
//! length of the call and turns the answered word into a `Result`. Nothing is
//! copied and nothing is kept, so that calls may be made from any thread at
//! once. Whatever bytes and lengths they are handed, they end, and a refused
//! call changes no byte that was lent. A call panics only where the linked
//! library is not of this version: at a word that `rack.h` does not describe.
//!
//! A task is prepared once and then run each period:
//!
//! ```
//! use rack::{Form, LONGEST, PORTS, VARIABLES};
//!
//! // SET, READ, WRITE and BEAT take 3 ticks and SAVE 10; every 4th window of
//! // 20 ticks has a SAVE; the period is 100.
//! let settings = [3, 3, 3, 3, 10, 4, 20, 0, 100, 0, 0, 0];
//! let task = [
//!     3, 0, 0, 0, 0, 0, 0, 0, 0, 0, 0, 0, // READ variable 0 from port 0
//!     4, 0, 0, 0, 0, 0, 0, 0, 0, 0, 0, 0, // WRITE variable 0 to port 0
//! ];
//! let mut out = [0; LONGEST];
//! let laid = rack::prepare(&settings, &task, &mut out)?;
//! assert_eq!((laid.bytes, laid.time), (72, 23));
//! // What follows the file in the buffer is not part of it.
//! let file = &out[..laid.bytes];
//!
//! let (mut variables, mut levels, mut marks) = ([0; VARIABLES], [0; PORTS], [0; PORTS]);
//! let inputs = [7, 0, 0, 0, 0, 0, 0, 0];
//! let end = rack::run(
//!     &settings, Form::Laid, file, &mut variables, &inputs, &mut levels, &mut marks,
//! )?;
//! assert_eq!((end.tick, end.overran), (23, false));
//! assert_eq!((levels[0], marks[0]), (7, 1));
//! # Ok::<(), rack::Refusal>(())
//! ```
//!
//! Settings are [`SETTINGS`] bytes or, for slow steps, long windows or a multiply
//! with its own ticks, [`WIDE_SETTINGS`]. Heartbeats, totals and taking up are as
//! promised where a task is prepared, run and taken up under settings of the same
//! numbers.
//!
//! A spare controller watches others by a table: [`beat`] has an example.

mod answer;
mod library;
mod refusal;

pub use answer::{Ended, Health, Stopped, Watched, Written};
pub use refusal::Refusal;

use library::{Runs, Writes};

/// The bytes of settings in the narrow form: the ticks of SET, READ, WRITE, BEAT
/// and SAVE and the spacing K in a byte each, the window H in 2 bytes and the
/// period P in 4, lowest first. Each is at least 1, and P at most 1,000,000. A
/// SET that multiplies takes SET's ticks.
pub const SETTINGS: usize = 12;
/// The bytes of settings in the wide form: the same six numbers in 2 bytes each,
/// then H, P and the ticks of a SET that multiplies in 4 bytes each. H may reach
/// 1,000,000 too, and the last number 65,535; it is at least 1.
///
/// Every call takes either form, and under equal numbers it answers and writes
/// the same. The wide one is for steps of more than 255 ticks, and for a multiply
/// that takes other ticks than SET:
///
/// ```
/// // SET, READ and BEAT take 3 ticks, WRITE 900 and SAVE 10; every 2nd window
/// // of 1,000 ticks has a SAVE; the period is 10,000; a SET that multiplies
/// // takes 20.
/// let small = [3u16, 3, 900, 3, 10, 2].map(u16::to_le_bytes);
/// let large = [1_000u32, 10_000, 20].map(u32::to_le_bytes);
/// let settings = [small.concat(), large.concat()].concat();
/// assert_eq!(settings.len(), rack::WIDE_SETTINGS);
///
/// let task = [
///     3, 0, 0, 0, 0, 0, 0, 0, 0, 0, 0, 0, // READ variable 0 from port 0
///     4, 0, 0, 0, 0, 0, 0, 0, 0, 0, 0, 0, // WRITE variable 0 to port 0
///     4, 0, 0, 1, 0, 0, 0, 0, 0, 0, 0, 0, // WRITE variable 0 to port 1
/// ];
/// let mut out = [0; rack::LONGEST];
/// let laid = rack::prepare(&settings, &task, &mut out)?;
/// // The second WRITE waits for the window that begins at tick 1,000.
/// assert_eq!((laid.bytes, laid.time), (108, 2_003));
///
/// let add = [2, 1, 0, 0, 5, 0, 0, 0, 0, 0, 0, 0]; // variable 0 + 5
/// let multiply = [2, 3, 0, 0, 5, 0, 0, 0, 0, 0, 0, 0]; // variable 0 * 5
/// assert_eq!(rack::time_file(&settings, rack::Form::Task, &add)?, 3);
/// assert_eq!(rack::time_file(&settings, rack::Form::Task, &multiply)?, 20);
/// # Ok::<(), rack::Refusal>(())
/// ```
pub const WIDE_SETTINGS: usize = 24;
/// The variables of a run.
pub const VARIABLES: usize = 16;
/// The ports: so many inputs, levels and marks.
pub const PORTS: usize = 8;
/// The bytes of an image.
pub const IMAGE: usize = 72;
/// The bytes of the longest file: 5461 records of 12.
pub const LONGEST: usize = 65_532;

/// The numbers of an entry of a watcher's table: its count + 2, its window, and
/// 1 while it waits for a beat. Any number but 0 counts as waiting there.
pub const ENTRY: usize = 3;
/// The most entries of a table.
pub const ENTRIES: usize = 32;

/// Which of the three kinds of file a call is handed.
#[derive(Clone, Copy, Debug, PartialEq, Eq)]
#[repr(u8)]
pub enum Form {
    Task = 0,
    Equalised = 1,
    Laid = 2,
}

/// The library takes the form as a number; 3 and above count as laid.
impl From<Form> for u8 {
    fn from(form: Form) -> u8 {
        form as u8
    }
}

/// The time of a file, in ticks.
pub fn time_file(settings: &[u8], form: impl Into<u8>, file: &[u8]) -> Result<u32, Refusal> {
    // SAFETY: every pointer and length is that of a slice borrowed here.
    let word = unsafe {
        library::rack_time(
            settings.as_ptr(),
            settings.len(),
            form.into(),
            file.as_ptr(),
            file.len(),
        )
    };
    answer::timed(word)
}

fn write_by(
    call: Writes,
    settings: &[u8],
    file: &[u8],
    out: &mut [u8],
) -> Result<Written, Refusal> {
    // SAFETY: as in `time_file`; `out` is borrowed for writing, so that it
    // overlaps no other slice.
    let word = unsafe {
        call(
            settings.as_ptr(),
            settings.len(),
            file.as_ptr(),
            file.len(),
            out.as_mut_ptr(),
            out.len(),
        )
    };
    answer::written(word)
}

/// Writes the equalised file of a task over the front of `out`.
pub fn equalise(settings: &[u8], task: &[u8], out: &mut [u8]) -> Result<Written, Refusal> {
    write_by(library::rack_equalise, settings, task, out)
}

/// Writes the laid file of an equalised file over the front of `out`.
pub fn lay_out(settings: &[u8], equalised: &[u8], out: &mut [u8]) -> Result<Written, Refusal> {
    write_by(library::rack_lay_out, settings, equalised, out)
}

/// Writes the laid file of a task, equalised first, over the front of `out`.
///
/// ```
/// # let settings = [3, 3, 3, 3, 10, 4, 20, 0, 100, 0, 0, 0];
/// let task = [
///     3, 0, 0, 0, 0, 0, 0, 0, 0, 0, 0, 0, // READ variable 0 from port 0
///     4, 0, 0, 0, 0, 0, 0, 0, 0, 0, 0, 0, // WRITE variable 0 to port 0
/// ];
/// let mut out = [0; rack::LONGEST];
/// let laid = rack::prepare(&settings, &task, &mut out)?;
/// assert_eq!((laid.bytes, laid.time), (72, 23));
///
/// let refusal = rack::prepare(&settings, &task, &mut out[..71]).unwrap_err();
/// assert_eq!(refusal, rack::Refusal::NoRoom);
/// let refusal = rack::prepare(&settings, &task[..23], &mut out).unwrap_err();
/// assert_eq!((refusal.number(), refusal.value()), (1, Some(23)));
/// # Ok::<(), rack::Refusal>(())
/// ```
pub fn prepare(settings: &[u8], task: &[u8], out: &mut [u8]) -> Result<Written, Refusal> {
    write_by(library::rack_prepare, settings, task, out)
}

#[allow(clippy::too_many_arguments)]
fn run_by(
    call: Runs,
    settings: &[u8],
    form: u8,
    file: &[u8],
    variables: &mut [u32],
    inputs: &[u32],
    levels: &mut [u32],
    marks: &mut [u8],
) -> Result<Ended, Refusal> {
    // SAFETY: as in `write_by`.
    let word = unsafe {
        call(
            settings.as_ptr(),
            settings.len(),
            form,
            file.as_ptr(),
            file.len(),
            variables.as_mut_ptr(),
            variables.len(),
            inputs.as_ptr(),
            inputs.len(),
            levels.as_mut_ptr(),
            levels.len(),
            marks.as_mut_ptr(),
            marks.len(),
        )
    };
    answer::ended(word)
}

/// Runs a file from its first record to its end, with levels and marks set to
/// 0 first. A level counts where its mark is 1; where that is 0, nothing was
/// written to the port.
///
/// ```
/// # let settings = [3, 3, 3, 3, 10, 4, 20, 0, 100, 0, 0, 0];
/// let task = [
///     3, 0, 0, 0, 0, 0, 0, 0, 0, 0, 0, 0, // READ variable 0 from port 0
///     4, 0, 0, 1, 0, 0, 0, 0, 0, 0, 0, 0, // WRITE variable 0 to port 1
/// ];
/// let (mut variables, inputs) = ([0; 16], [7, 0, 0, 0, 0, 0, 0, 0]);
/// let (mut levels, mut marks) = ([0; 8], [0; 8]);
/// let form = rack::Form::Task;
/// let end = rack::run(
///     &settings, form, &task, &mut variables, &inputs, &mut levels, &mut marks,
/// )?;
/// assert_eq!(end.tick, 6);
/// assert_eq!((levels[1], marks), (7, [0, 1, 0, 0, 0, 0, 0, 0]));
/// # Ok::<(), rack::Refusal>(())
/// ```
pub fn run(
    settings: &[u8],
    form: impl Into<u8>,
    file: &[u8],
    variables: &mut [u32],
    inputs: &[u32],
    levels: &mut [u32],
    marks: &mut [u8],
) -> Result<Ended, Refusal> {
    let (call, form) = (library::rack_run, form.into());
    run_by(call, settings, form, file, variables, inputs, levels, marks)
}

/// As [`run`], stopped at the tick `stop`, which lies before the end. Where a
/// checkpoint was finished by then, `image` has the last one, for [`resume`];
/// else it is untouched, and [`restart`] takes the run up. That needs the first
/// variables: keep a copy, since this call writes over them.
///
/// ```
/// # let settings = [3, 3, 3, 3, 10, 4, 20, 0, 100, 0, 0, 0];
/// # let task = [3, 0, 0, 0, 0, 0, 0, 0, 0, 0, 0, 0, 4, 0, 0, 0, 0, 0, 0, 0, 0, 0, 0, 0];
/// # let mut out = [0; rack::LONGEST];
/// # let laid = rack::prepare(&settings, &task, &mut out)?;
/// // Prepared as above: BEAT, SAVE from tick 3 to 13, READ, WRITE, SKIP, BEAT.
/// let (form, file) = (rack::Form::Laid, &out[..laid.bytes]);
/// let (mut variables, inputs) = ([0; 16], [7, 0, 0, 0, 0, 0, 0, 0]);
/// let (mut levels, mut marks, mut image) = ([0; 8], [0; 8], [0; rack::IMAGE]);
///
/// let stop = rack::run_until(
///     &settings, form, file, &mut variables, &inputs, &mut levels, &mut marks, &mut image, 17,
/// )?;
/// assert!(stop.saved);
/// assert_eq!((variables[0], marks[0]), (7, 0));
///
/// // A spare controller has its own variables: the image brings the right ones.
/// let mut variables = [99; 16];
/// let end = rack::resume(
///     &settings, form, file, &mut variables, &inputs, &mut levels, &mut marks, &image,
/// )?;
/// assert_eq!((end.tick, levels[0], marks[0]), (23, 7, 1));
/// # Ok::<(), rack::Refusal>(())
/// ```
#[allow(clippy::too_many_arguments)]
pub fn run_until(
    settings: &[u8],
    form: impl Into<u8>,
    file: &[u8],
    variables: &mut [u32],
    inputs: &[u32],
    levels: &mut [u32],
    marks: &mut [u8],
    image: &mut [u8],
    stop: u32,
) -> Result<Stopped, Refusal> {
    // SAFETY: as in `write_by`.
    let word = unsafe {
        library::rack_run_until(
            settings.as_ptr(),
            settings.len(),
            form.into(),
            file.as_ptr(),
            file.len(),
            variables.as_mut_ptr(),
            variables.len(),
            inputs.as_ptr(),
            inputs.len(),
            levels.as_mut_ptr(),
            levels.len(),
            marks.as_mut_ptr(),
            marks.len(),
            image.as_mut_ptr(),
            image.len(),
            stop,
        )
    };
    answer::stopped(word)
}

/// Takes a stopped run up from its image, with the same settings, file and
/// inputs, and with levels and marks as the stop left them. Whatever
/// `variables` held, they begin as the image has them. [`run_until`] has an
/// example.
#[allow(clippy::too_many_arguments)]
pub fn resume(
    settings: &[u8],
    form: impl Into<u8>,
    file: &[u8],
    variables: &mut [u32],
    inputs: &[u32],
    levels: &mut [u32],
    marks: &mut [u8],
    image: &[u8],
) -> Result<Ended, Refusal> {
    // SAFETY: as in `write_by`.
    let word = unsafe {
        library::rack_resume(
            settings.as_ptr(),
            settings.len(),
            form.into(),
            file.as_ptr(),
            file.len(),
            variables.as_mut_ptr(),
            variables.len(),
            inputs.as_ptr(),
            inputs.len(),
            levels.as_mut_ptr(),
            levels.len(),
            marks.as_mut_ptr(),
            marks.len(),
            image.as_ptr(),
            image.len(),
        )
    };
    answer::ended(word)
}

/// Takes a stopped run up where no checkpoint was finished: from the first
/// record and the first variables, with the same settings, file and inputs,
/// and with levels and marks as the stop left them.
pub fn restart(
    settings: &[u8],
    form: impl Into<u8>,
    file: &[u8],
    variables: &mut [u32],
    inputs: &[u32],
    levels: &mut [u32],
    marks: &mut [u8],
) -> Result<Ended, Refusal> {
    let (call, form) = (library::rack_restart, form.into());
    run_by(call, settings, form, file, variables, inputs, levels, marks)
}

/// A BEAT of this value has ended: the entry no longer waits, and its count is
/// the value. One that has failed stays so. Where a beat and a look share a
/// tick, the beat goes first.
///
/// A table is as many numbers as its entries ask for, [`ENTRY`] each, and every
/// entry begins with a [`reset`]: three zeros are one that has failed. Here the
/// second of two controllers beats once and is silent from then on:
///
/// ```
/// use rack::{Health, ENTRY};
///
/// let mut table = [0; 2 * ENTRY];
/// for entry in 0..2 {
///     assert_eq!(rack::reset(&mut table, entry, 20)?.health, Health::Waiting);
///     assert_eq!(rack::beat(&mut table, entry, 1)?.health, Health::Well);
/// }
/// let mut seen = Vec::new();
/// for _ in 0..3 {
///     rack::beat(&mut table, 0, 1)?;
///     rack::look(&mut table, 0)?;
///     seen.push(rack::look(&mut table, 1)?.health);
/// }
/// // A beat of value 1 covers one look; at the third the silence is certain.
/// assert_eq!(seen, [Health::Well, Health::Suspect, Health::Failed]);
/// assert_eq!(rack::status(&table, 0)?.health, Health::Well);
///
/// // Failed holds until the entry is reset.
/// assert_eq!(rack::beat(&mut table, 1, 1)?.health, Health::Failed);
/// assert_eq!(rack::reset(&mut table, 1, 20)?.health, Health::Waiting);
///
/// let refusal = rack::look(&mut table, 2).unwrap_err();
/// assert_eq!(refusal, rack::Refusal::BadEntry);
/// # Ok::<(), rack::Refusal>(())
/// ```
#[inline]
pub fn beat(table: &mut [u32], entry: u32, value: u32) -> Result<Watched, Refusal> {
    // SAFETY: as in `time_file`; the table is borrowed for writing.
    let word = unsafe { library::rack_beat(table.as_mut_ptr(), table.len(), entry, value) };
    answer::watched(word)
}

/// A window has passed: takes 1 off the count of an entry that neither waits
/// nor has failed. [`beat`] has an example.
#[inline]
pub fn look(table: &mut [u32], entry: u32) -> Result<Watched, Refusal> {
    // SAFETY: as in `beat`.
    let word = unsafe { library::rack_look(table.as_mut_ptr(), table.len(), entry) };
    answer::watched(word)
}

/// Gives an entry a window, that of the file which its controller runs, and
/// the count 0; it waits for its next beat.
#[inline]
pub fn reset(table: &mut [u32], entry: u32, window: u32) -> Result<Watched, Refusal> {
    // SAFETY: as in `beat`.
    let word = unsafe { library::rack_reset(table.as_mut_ptr(), table.len(), entry, window) };
    answer::watched(word)
}

/// What an entry is; the table is not changed.
#[inline]
pub fn status(table: &[u32], entry: u32) -> Result<Watched, Refusal> {
    // SAFETY: as in `time_file`.
    let word = unsafe { library::rack_status(table.as_ptr(), table.len(), entry) };
    answer::watched(word)
}
