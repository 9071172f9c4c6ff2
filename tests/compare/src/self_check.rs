//! The negative control: a flipped bit or a number changed must be reported,
//! wherever it is, and the same calls without it must not be.

use crate::bench::{factorial, BENCH};
use crate::call::{Call, Kind, Set};
use crate::chain::{self, prepare, Prepared};
use crate::comparer::{Comparer, Flip, Place};
use crate::random::Random;
use crate::records::*;
use crate::steady::Steady;
use crate::wide::told_apart;
use second::Beat;

const RUNS: [Kind; 4] = [Kind::Run, Kind::RunUntil, Kind::Resume, Kind::Restart];

/// How many changes were tried and how many of them went wrong.
pub struct Control {
    pub tried: u64,
    pub missed: u64,
}

pub fn check() -> Control {
    let mut control = Control {
        tried: 0,
        missed: 0,
    };
    let settings = BENCH.with_period(200);
    let mut plain = Comparer::new();
    let prepared = prepare(&mut plain, &mut Random::new(1), &settings, &factorial());
    let Some(prepared) = prepared else {
        control.missed += 1;
        return control;
    };
    control.finished_calls(&prepared);
    control.refused_calls(&prepared);
    control.files(&settings);
    control.ends(&prepared);
    control.entries();
    control.late_beats(&settings);
    control.forms(&settings);
    control
}

impl Control {
    /// Does the same twice, without the flip and with it.
    fn try_flip(&mut self, flip: Flip, action: impl Fn(&mut Comparer, &mut Random)) {
        let mut plain = Comparer::new();
        plain.quiet = true;
        action(&mut plain, &mut Random::new(2));
        let mut flipped = Comparer::new();
        flipped.quiet = true;
        flipped.flip = Some(flip);
        action(&mut flipped, &mut Random::new(2));
        self.tried += 1;
        self.missed += u64::from(plain.differences > 0 || flipped.differences == 0);
    }

    fn try_call(&mut self, flip: Flip, prepared: &Prepared, file: u8, form: u8) {
        self.try_flip(flip, |comparer, random| {
            let set = values();
            let job = prepared.job(file, &set);
            let mut call = Call::new(flip.kind, job.settings, form, job.file, random)
                .fed(&set)
                .with_out(MOST_BYTES, random)
                .stopping_at(100);
            call.lent.image = image(2, 13, &set.variables);
            comparer.call(&call);
        });
    }

    /// The bit is flipped on the first side alone: the comparison must tell.
    fn finished_calls(&mut self, prepared: &Prepared) {
        let both = false;
        let mut try_place = |kind, place, form| {
            let flip = Flip { kind, place, both };
            self.try_call(flip, prepared, form, form);
        };
        try_place(Kind::Time, Place::Answer, TASK);
        for place in [Place::Answer, Place::Out, Place::Result] {
            try_place(Kind::Equalise, place, TASK);
            try_place(Kind::LayOut, place, EQUALISED);
            try_place(Kind::Prepare, place, TASK);
        }
        for kind in RUNS {
            for place in [Place::Answer, Place::Inputs, Place::Image] {
                try_place(kind, place, LAID);
            }
            for place in [Place::Variables, Place::Levels, Place::Marks] {
                try_place(kind, place, LAID);
            }
        }
    }

    /// The bit is flipped on both sides, in a file taken for one of another
    /// form: only the statement on refusals can tell.
    fn refused_calls(&mut self, prepared: &Prepared) {
        let both = true;
        let mut try_place = |kind, place, file| {
            let flip = Flip { kind, place, both };
            self.try_call(flip, prepared, file, LAID);
        };
        for kind in RUNS {
            for place in [Place::Variables, Place::Levels, Place::Marks, Place::Inputs] {
                try_place(kind, place, EQUALISED);
            }
        }
        try_place(Kind::Equalise, Place::Out, EQUALISED);
        try_place(Kind::LayOut, Place::Out, LAID);
        try_place(Kind::Prepare, Place::Out, EQUALISED);
        for kind in Kind::OF_FILES {
            try_place(kind, Place::Outside, LAID);
        }
    }

    /// The bit is flipped on both sides, in a file that is used further: only
    /// the times and the walk over the laid file can tell, and, of preparing,
    /// the two calls that it stands for.
    fn files(&mut self, settings: &Settings) {
        for kind in [Kind::Equalise, Kind::LayOut, Kind::Prepare] {
            let (place, both) = (Place::Result, true);
            self.try_flip(Flip { kind, place, both }, |comparer, random| {
                prepare(comparer, random, settings, &factorial());
            });
        }
    }

    /// The bit is flipped on both sides, in the end of one kind of run: only
    /// the comparison of ends can tell.
    fn ends(&mut self, prepared: &Prepared) {
        let both = true;
        for kind in [Kind::Run, Kind::Resume, Kind::Restart] {
            for place in [Place::Answer, Place::Variables, Place::Levels] {
                self.try_flip(Flip { kind, place, both }, |comparer, random| {
                    let set = values();
                    let job = prepared.job(LAID, &set);
                    let (_, Some(whole)) = chain::run(comparer, random, &job) else {
                        return;
                    };
                    for tick in [5, 100] {
                        chain::stop(comparer, random, &job, &whole, tick);
                    }
                });
            }
        }
    }

    /// The bit is flipped in what a call of the watcher answers or leaves, of
    /// an entry that waits and one that has failed, and of a refused call. On
    /// both sides alike, only the statements on entries can tell.
    fn entries(&mut self) {
        let table = [2, 20, 1, 0, 20, 0, 5, 20, 0];
        let both = [false, true];
        for kind in Kind::OF_TABLES {
            for place in [Place::Answer, Place::Health, Place::Table, Place::Outside] {
                for flip in both.map(|both| Flip { kind, place, both }) {
                    for entry in 0..2 {
                        self.try_flip(flip, |comparer, _| {
                            comparer.call(&Call::watching(kind, &table, entry, 9));
                        });
                    }
                }
            }
            for place in [Place::Answer, Place::Table, Place::Outside] {
                for flip in both.map(|both| Flip { kind, place, both }) {
                    self.try_flip(flip, |comparer, _| {
                        comparer.call(&Call::watching(kind, &table, 3, 9));
                    });
                }
            }
        }
    }

    /// A last BEAT that tells no window left: only the watch over steady
    /// periods can tell that looks then fail its controller.
    fn late_beats(&mut self, settings: &Settings) {
        let noticed = |last: u32| {
            let (mut comparer, mut random) = (Comparer::new(), Random::new(2));
            comparer.quiet = true;
            let steady = Steady::new(&mut comparer, &mut random, settings, &factorial());
            if let Some(mut steady) = steady {
                let is_last = |beat: &&mut Beat| beat.value == 3;
                let lasts = steady.beats.iter_mut().filter(is_last);
                lasts.for_each(|beat| beat.value = last);
                steady.watch(&mut comparer, &mut random, 0, 0);
            }
            comparer.differences > 0
        };
        self.tried += 1;
        self.missed += u64::from(noticed(3) || !noticed(0));
    }

    /// One of the numbers is another in two records: only the comparison of
    /// both forms can tell.
    fn forms(&mut self, settings: &Settings) {
        let multiply = settings.multiply_ticks();
        let more = |place: &fn(&mut Settings) -> &mut u16| {
            let mut other = settings.with_multiply(multiply);
            *place(&mut other) += 1;
            other
        };
        let window = settings.with_window(settings.window + 1);
        // A period longer by a window, since less may not show.
        let period = settings.with_period(settings.period + settings.window);
        let multiply = settings.with_multiply(multiply + 1);
        let large = [window, period, multiply];
        let told = |other: &Settings| told_apart(settings, other, &factorial());
        for other in SMALL_NUMBERS.iter().map(more).chain(large) {
            self.tried += 1;
            self.missed += u64::from(told(settings) || !told(&other));
        }
    }
}

fn values() -> Set {
    Set {
        variables: vec![3; 16],
        inputs: vec![6; 8],
    }
}
