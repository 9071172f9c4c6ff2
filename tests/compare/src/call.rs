//! One call, as data, and how to make it through either implementation.

use crate::guard::Guarded;
use crate::random::Random;
use std::panic::{catch_unwind, AssertUnwindSafe};

#[derive(Clone, Copy, PartialEq, Eq, Debug)]
pub enum Kind {
    Time,
    Equalise,
    LayOut,
    Prepare,
    Run,
    RunUntil,
    Resume,
    Restart,
    Beat,
    Look,
    Reset,
    Status,
}

impl Kind {
    /// The calls that are handed settings and a file.
    pub const OF_FILES: [Kind; 8] = [
        Kind::Time,
        Kind::Equalise,
        Kind::LayOut,
        Kind::Prepare,
        Kind::Run,
        Kind::RunUntil,
        Kind::Resume,
        Kind::Restart,
    ];

    /// The calls that are handed a watcher's table.
    pub const OF_TABLES: [Kind; 4] = [Kind::Beat, Kind::Look, Kind::Reset, Kind::Status];

    pub fn all() -> impl Iterator<Item = Kind> {
        Kind::OF_FILES.into_iter().chain(Kind::OF_TABLES)
    }

    /// The calls that run a file.
    pub fn runs(self) -> bool {
        use Kind::{Restart, Resume, Run, RunUntil};
        matches!(self, Run | RunUntil | Resume | Restart)
    }

    pub fn watches(self) -> bool {
        Kind::OF_TABLES.contains(&self)
    }

    /// The calls that write a file.
    pub fn writes(self) -> bool {
        matches!(self, Kind::Equalise | Kind::LayOut | Kind::Prepare)
    }
}

/// The buffers lent besides the settings and the file. A call leaves those it
/// has no use for alone.
#[derive(Clone, Default, PartialEq, Eq)]
pub struct Lent {
    pub out: Vec<u8>,
    pub variables: Vec<u32>,
    pub inputs: Vec<u32>,
    pub levels: Vec<u32>,
    pub marks: Vec<u8>,
    pub image: Vec<u8>,
    pub table: Vec<u32>,
}

#[derive(Clone)]
pub struct Call<'a> {
    pub kind: Kind,
    pub settings: &'a [u8],
    pub form: u8,
    pub file: &'a [u8],
    pub stop: u32,
    pub entry: u32,
    /// A beat's value, or the window of a reset.
    pub number: u32,
    pub lent: Lent,
}

/// What is known of a watched controller.
#[derive(Clone, Copy, PartialEq, Eq, Debug)]
pub enum Health {
    Waiting,
    Well,
    Suspect,
    Failed,
}

impl Health {
    pub const ALL: [Health; 4] = [
        Health::Waiting,
        Health::Well,
        Health::Suspect,
        Health::Failed,
    ];
}

#[derive(Clone, PartialEq, Eq, Debug)]
pub enum Answer {
    Time(u32),
    Written { bytes: usize, time: u32 },
    Ended { tick: u32, overran: bool },
    Stopped { tick: u32, saved: bool },
    Watched { health: Health, left: u32 },
    Refused { number: u8, value: Option<u64> },
    Panicked,
}

impl Answer {
    /// A refusal that returns its number alone.
    pub fn refused(number: u8) -> Answer {
        let value = None;
        Answer::Refused { number, value }
    }

    /// A refusal that returns a record index or a length.
    pub fn refused_at(number: u8, value: usize) -> Answer {
        let value = Some(value as u64);
        Answer::Refused { number, value }
    }
}

/// What a call answered, the lent buffers afterwards, and whether anything
/// was written outside them.
#[derive(Clone)]
pub struct Outcome {
    pub answer: Answer,
    pub lent: Lent,
    pub stayed_inside: bool,
}

/// The 16 first variables and 8 inputs that a run is fed.
#[derive(Clone)]
pub struct Set {
    pub variables: Vec<u32>,
    pub inputs: Vec<u32>,
}

impl<'a> Call<'a> {
    /// A call with noise in every buffer, of the right lengths for a run and
    /// with an empty output buffer.
    pub fn new(
        kind: Kind,
        settings: &'a [u8],
        form: u8,
        file: &'a [u8],
        random: &mut Random,
    ) -> Call<'a> {
        let lent = Lent {
            out: Vec::new(),
            variables: random.words(16),
            inputs: random.words(8),
            levels: random.words(8),
            marks: random.bytes(8),
            image: random.bytes(72),
            table: Vec::new(),
        };
        Call {
            settings,
            form,
            file,
            lent,
            ..Call::bare(kind)
        }
    }

    /// A call that is handed nothing.
    fn bare(kind: Kind) -> Call<'a> {
        Call {
            kind,
            settings: &[],
            form: 0,
            file: &[],
            stop: 0,
            entry: 0,
            number: 0,
            lent: Lent::default(),
        }
    }

    /// A call of the watcher; `number` is a beat's value or a reset's window.
    pub fn watching(kind: Kind, table: &[u32], entry: u32, number: u32) -> Call<'a> {
        let table = table.to_vec();
        let lent = Lent {
            table,
            ..Lent::default()
        };
        Call {
            entry,
            number,
            lent,
            ..Call::bare(kind)
        }
    }

    pub fn with_out(mut self, length: usize, random: &mut Random) -> Call<'a> {
        self.lent.out = random.bytes(length);
        self
    }

    pub fn fed(mut self, set: &Set) -> Call<'a> {
        self.lent.variables.clone_from(&set.variables);
        self.lent.inputs.clone_from(&set.inputs);
        self
    }

    pub fn stopping_at(mut self, stop: u32) -> Call<'a> {
        self.stop = stop;
        self
    }

    /// Takes up what a stop left: its outputs and, if there is one, its image.
    pub fn after(mut self, stopped: &Lent) -> Call<'a> {
        self.lent.levels.clone_from(&stopped.levels);
        self.lent.marks.clone_from(&stopped.marks);
        self.lent.image.clone_from(&stopped.image);
        self
    }
}

/// Copies of all that a call lends, between margins.
struct Held {
    settings: Guarded<u8>,
    file: Guarded<u8>,
    out: Guarded<u8>,
    variables: Guarded<u32>,
    inputs: Guarded<u32>,
    levels: Guarded<u32>,
    marks: Guarded<u8>,
    image: Guarded<u8>,
    table: Guarded<u32>,
}

impl Held {
    fn new(call: &Call) -> Held {
        Held {
            settings: Guarded::new(call.settings),
            file: Guarded::new(call.file),
            out: Guarded::new(&call.lent.out),
            variables: Guarded::new(&call.lent.variables),
            inputs: Guarded::new(&call.lent.inputs),
            levels: Guarded::new(&call.lent.levels),
            marks: Guarded::new(&call.lent.marks),
            image: Guarded::new(&call.lent.image),
            table: Guarded::new(&call.lent.table),
        }
    }

    fn stayed_inside(&mut self, call: &Call) -> bool {
        let bytes = [
            &self.settings,
            &self.file,
            &self.out,
            &self.marks,
            &self.image,
        ];
        let words = [&self.variables, &self.inputs, &self.levels, &self.table];
        bytes.iter().all(|held| held.intact())
            && words.iter().all(|held| held.intact())
            && self.settings.lent() == call.settings
            && self.file.lent() == call.file
    }

    fn outcome(mut self, call: &Call, answer: Answer) -> Outcome {
        let stayed_inside = self.stayed_inside(call);
        let lent = Lent {
            out: self.out.take(),
            variables: self.variables.take(),
            inputs: self.inputs.take(),
            levels: self.levels.take(),
            marks: self.marks.take(),
            image: self.image.take(),
            table: self.table.take(),
        };
        Outcome {
            answer,
            lent,
            stayed_inside,
        }
    }
}

/// Both libraries have the same functions and equally shaped types, but not
/// the same types; the macros write the translation once.
macro_rules! answers {
    ($library:ident) => {
        impl From<$library::Written> for Answer {
            fn from(written: $library::Written) -> Answer {
                let (bytes, time) = (written.bytes, written.time);
                Answer::Written { bytes, time }
            }
        }

        impl From<$library::Ended> for Answer {
            fn from(ended: $library::Ended) -> Answer {
                let (tick, overran) = (ended.tick, ended.overran);
                Answer::Ended { tick, overran }
            }
        }

        impl From<$library::Stopped> for Answer {
            fn from(stopped: $library::Stopped) -> Answer {
                let (tick, saved) = (stopped.tick, stopped.saved);
                Answer::Stopped { tick, saved }
            }
        }

        impl From<$library::Watched> for Answer {
            fn from(watched: $library::Watched) -> Answer {
                let health = match watched.health {
                    $library::Health::Waiting => Health::Waiting,
                    $library::Health::Well => Health::Well,
                    $library::Health::Suspect => Health::Suspect,
                    $library::Health::Failed => Health::Failed,
                };
                let left = watched.left;
                Answer::Watched { health, left }
            }
        }
    };
}

answers!(rack);
answers!(second);

impl From<rack::Refusal> for Answer {
    fn from(refusal: rack::Refusal) -> Answer {
        let (number, value) = (refusal.number(), refusal.value());
        Answer::Refused { number, value }
    }
}

impl From<second::Refused> for Answer {
    fn from(refused: second::Refused) -> Answer {
        let (number, value) = (refused.number, refused.value);
        Answer::Refused { number, value }
    }
}

macro_rules! implementation {
    ($of_files:ident, $of_tables:ident, $library:ident, $form:expr) => {
        fn $of_files(call: &Call, held: &mut Held) -> Answer {
            let form = $form(call.form);
            let (settings, file) = (&*held.settings.lent(), &*held.file.lent());
            let (out, image) = (held.out.lent(), held.image.lent());
            let (variables, inputs) = (held.variables.lent(), &*held.inputs.lent());
            let (levels, marks) = (held.levels.lent(), held.marks.lent());
            let stop = call.stop;
            match call.kind {
                Kind::Time => $library::time_file(settings, form, file).map(Answer::Time),
                Kind::Equalise => $library::equalise(settings, file, out).map(Answer::from),
                Kind::LayOut => $library::lay_out(settings, file, out).map(Answer::from),
                Kind::Prepare => $library::prepare(settings, file, out).map(Answer::from),
                Kind::Run => $library::run(settings, form, file, variables, inputs, levels, marks)
                    .map(Answer::from),
                Kind::RunUntil => $library::run_until(
                    settings, form, file, variables, inputs, levels, marks, image, stop,
                )
                .map(Answer::from),
                Kind::Resume => $library::resume(
                    settings, form, file, variables, inputs, levels, marks, image,
                )
                .map(Answer::from),
                Kind::Restart => {
                    $library::restart(settings, form, file, variables, inputs, levels, marks)
                        .map(Answer::from)
                }
                Kind::Beat | Kind::Look | Kind::Reset | Kind::Status => {
                    return $of_tables(call, held.table.lent());
                }
            }
            .unwrap_or_else(Answer::from)
        }

        fn $of_tables(call: &Call, table: &mut [u32]) -> Answer {
            let (entry, number) = (call.entry, call.number);
            match call.kind {
                Kind::Beat => $library::beat(table, entry, number),
                Kind::Look => $library::look(table, entry),
                Kind::Reset => $library::reset(table, entry, number),
                _ => $library::status(table, entry),
            }
            .map_or_else(Answer::from, Answer::from)
        }
    };
}

fn second_form(form: u8) -> second::Form {
    match form {
        0 => second::Form::Task,
        1 => second::Form::Equalised,
        _ => second::Form::Laid,
    }
}

implementation!(call_first, watch_first, rack, |form: u8| form);
implementation!(call_second, watch_second, second, second_form);

fn make(call: &Call, implementation: fn(&Call, &mut Held) -> Answer) -> Outcome {
    let mut held = Held::new(call);
    let answer = catch_unwind(AssertUnwindSafe(|| implementation(call, &mut held)));
    held.outcome(call, answer.unwrap_or(Answer::Panicked))
}

pub fn make_first(call: &Call) -> Outcome {
    make(call, call_first)
}

pub fn make_second(call: &Call) -> Outcome {
    make(call, call_second)
}
