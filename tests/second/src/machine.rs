//! Running a file of any form: a counter over its records, the joins
//! between parts known beforehand, and a stack of the rounds left.

use crate::program::Program;
use crate::record::{Kind, Record};
use crate::settings::Settings;
use crate::{Beat, Ended, Refused};

/// The bytes of an image: index, tick and 16 variables.
const IMAGE: usize = 72;

/// What a run changes and shows.
#[derive(Clone)]
pub(crate) struct State {
    pub variables: [u32; 16],
    pub levels: [u32; 8],
    pub marks: [u8; 8],
}

/// What a finished SAVE keeps: the record after it, the tick and the variables.
#[derive(Clone)]
pub(crate) struct Image {
    pub at: u32,
    pub tick: u32,
    pub variables: [u32; 16],
}

impl Image {
    /// Reads an image taken while running this file; 10 for its length, 11
    /// where no SAVE of the file can have left it.
    pub(crate) fn read(
        bytes: &[u8],
        program: &Program,
        settings: &Settings,
    ) -> Result<Image, Refused> {
        let bytes = Image::sized(bytes)?;
        let (words, _) = bytes.as_chunks::<4>();
        let mut variables = [0; 16];
        for (variable, word) in variables.iter_mut().zip(&words[2..]) {
            *variable = u32::from_le_bytes(*word);
        }
        let image = Image {
            at: u32::from_le_bytes(words[0]),
            tick: u32::from_le_bytes(words[1]),
            variables,
        };
        let before = (image.at as usize).checked_sub(1);
        let record = before.and_then(|at| program.records.get(at));
        let after_save = record.is_some_and(|record| record.kind == Kind::Save);
        if after_save && image.tick <= settings.period {
            Ok(image)
        } else {
            Err(Refused::plain(11))
        }
    }

    pub(crate) fn sized(bytes: &[u8]) -> Result<&[u8; IMAGE], Refused> {
        bytes.try_into().map_err(|_| Refused::plain(10))
    }

    pub(crate) fn write(&self, bytes: &mut [u8]) {
        let words = [self.at, self.tick].into_iter().chain(self.variables);
        let (places, _) = bytes.as_chunks_mut::<4>();
        for (place, word) in places.iter_mut().zip(words) {
            *place = word.to_le_bytes();
        }
    }
}

/// Why a run goes no further.
pub(crate) enum Halt {
    Ended(Ended),
    /// The next step would end after the stop tick.
    Stopped,
}

enum Flow {
    On,
    Stopped,
    Overran,
}

pub(crate) struct Machine<'a> {
    program: &'a Program,
    settings: &'a Settings,
    inputs: &'a [u32; 8],
    pub state: State,
    at: usize,
    tick: u32,
    stop: u32,
    /// Rounds left of each open loop, innermost last.
    rounds: Vec<u32>,
    pub saved: Option<Image>,
    /// The BEATs made, where they are asked for.
    pub beats: Option<Vec<Beat>>,
}

impl<'a> Machine<'a> {
    /// A machine at record 0 and tick 0 that is not stopped.
    pub(crate) fn new(
        program: &'a Program,
        settings: &'a Settings,
        inputs: &'a [u32; 8],
        state: State,
    ) -> Machine<'a> {
        Machine {
            program,
            settings,
            inputs,
            state,
            at: 0,
            tick: 0,
            stop: u32::MAX,
            rounds: Vec::with_capacity(16),
            saved: None,
            beats: None,
        }
    }

    pub(crate) fn stop_at(&mut self, tick: u32) {
        self.stop = tick;
    }

    /// Takes up an image. Only laid files have one and they have no loops,
    /// so the index says all of where the run was.
    pub(crate) fn take_up(&mut self, image: &Image) {
        self.at = image.at as usize;
        self.tick = image.tick;
        self.state.variables = image.variables;
    }

    pub(crate) fn run(&mut self) -> Halt {
        let program = self.program;
        loop {
            let Some(record) = program.records.get(self.at) else {
                return self.ended(false);
            };
            let flow = match record.kind {
                Kind::If => self.branch(record),
                Kind::Else => {
                    self.at = program.mate(self.at) + 1;
                    Flow::On
                }
                Kind::While => {
                    self.rounds.push(record.count);
                    self.test_round(self.at, record)
                }
                Kind::Times => self.open_times(record),
                Kind::End => self.close(),
                Kind::Check => self.last_test(record),
                _ => self.plain(record),
            };
            match flow {
                Flow::On => {}
                Flow::Stopped => return Halt::Stopped,
                Flow::Overran => return self.ended(true),
            }
        }
    }

    fn ended(&self, overran: bool) -> Halt {
        Halt::Ended(Ended { tick: self.tick, overran })
    }

    /// Lets a step's ticks pass, unless the stop comes before its end.
    #[inline]
    fn pass(&mut self, ticks: u32) -> bool {
        let end = self.tick + ticks;
        if end > self.stop {
            return false;
        }
        self.tick = end;
        true
    }

    /// A step that goes on to the next record.
    #[inline]
    fn plain(&mut self, record: &Record) -> Flow {
        if !self.pass(self.settings.ticks(record)) {
            return Flow::Stopped;
        }
        self.at += 1;
        let state = &mut self.state;
        let variable = usize::from(record.two & 15);
        let port = usize::from(record.three & 7);
        match record.kind {
            Kind::Set => state.variables[variable] = record.result(&state.variables),
            Kind::Read => state.variables[variable] = self.inputs[port],
            Kind::Write => {
                state.levels[port] = state.variables[variable];
                state.marks[port] = 1;
            }
            Kind::Save => {
                self.saved =
                    Some(Image { at: self.at as u32, tick: self.tick, variables: state.variables });
            }
            Kind::Beat => {
                let beat = Beat { end: self.tick, value: record.value };
                self.beats.iter_mut().for_each(|made| made.push(beat));
            }
            _ => {}
        }
        Flow::On
    }

    fn branch(&mut self, test: &Record) -> Flow {
        if !self.pass(1) {
            return Flow::Stopped;
        }
        if !test.holds(&self.state.variables) {
            self.at = self.program.mate(self.at);
        }
        self.at += 1;
        Flow::On
    }

    /// The test before a round of the WHILE at `at`.
    fn test_round(&mut self, at: usize, test: &Record) -> Flow {
        if !self.pass(1) {
            return Flow::Stopped;
        }
        if !test.holds(&self.state.variables) {
            self.rounds.pop();
            self.at = self.program.mate(at) + 1;
            return Flow::On;
        }
        match self.rounds.last_mut() {
            Some(left) if *left > 0 => {
                *left -= 1;
                self.at = at + 1;
                Flow::On
            }
            _ => Flow::Overran,
        }
    }

    /// Begins a TIMES. Rounds of an empty body take no ticks and do nothing,
    /// so all but one are passed over.
    fn open_times(&mut self, record: &Record) -> Flow {
        let empty = self.program.mate(self.at) == self.at + 1;
        self.rounds.push(if empty { 1 } else { record.count });
        self.at += 1;
        Flow::On
    }

    /// Reaches an END: on past an IF's, or round again.
    fn close(&mut self) -> Flow {
        let program = self.program;
        let part = program.mate(self.at);
        let record = &program.records[part];
        match record.kind {
            Kind::While => self.test_round(part, record),
            Kind::Times => match self.rounds.last_mut() {
                Some(left) if *left > 1 => {
                    *left -= 1;
                    self.at = part + 1;
                    Flow::On
                }
                _ => {
                    self.rounds.pop();
                    self.last_test(record)
                }
            },
            _ => {
                self.at += 1;
                Flow::On
            }
        }
    }

    /// The test after all rounds, of a TIMES or as a CHECK.
    fn last_test(&mut self, test: &Record) -> Flow {
        if !self.pass(1) {
            return Flow::Stopped;
        }
        self.at += 1;
        if test.holds(&self.state.variables) {
            Flow::Overran
        } else {
            Flow::On
        }
    }
}
