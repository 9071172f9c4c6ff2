//! Preparing, held to the two calls that it stands for: equalising with room
//! enough, and laying out what that wrote.

use crate::call::{make_first, Answer, Call, Kind, Outcome};
use crate::records::MOST_BYTES;

/// How an outcome of preparing differs from that of the two calls.
pub fn apart(call: &Call, outcome: &Outcome) -> Option<String> {
    if call.kind != Kind::Prepare {
        return None;
    }
    let expected = in_two_calls(call);
    if outcome.answer != expected.answer {
        let answer = expected.answer;
        return Some(format!("equalising and laying out answer {answer:?}"));
    }
    let same = outcome.lent == expected.lent;
    (!same).then(|| "equalising and laying out leave other bytes".to_string())
}

fn in_two_calls(call: &Call) -> Outcome {
    let mut equalise = Call {
        kind: Kind::Equalise,
        ..call.clone()
    };
    equalise.lent.out = vec![0; MOST_BYTES];
    let equalised = make_first(&equalise);
    let Answer::Written { bytes, .. } = equalised.answer else {
        let lent = call.lent.clone();
        return Outcome { lent, ..equalised };
    };
    make_first(&Call {
        kind: Kind::LayOut,
        file: &equalised.lent.out[..bytes],
        ..call.clone()
    })
}
