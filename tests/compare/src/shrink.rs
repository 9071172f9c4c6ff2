//! Makes the file of a differing call shorter, to show the cause.

use crate::call::Call;

/// Longer files are left as they are: each try makes the call again.
const LONGEST: usize = 12 * 300;

/// A shorter file on which the call still differs, if there is one.
pub fn shrink(call: &Call, differs: impl Fn(&Call) -> bool) -> Option<Vec<u8>> {
    if call.file.len() > LONGEST || !call.file.len().is_multiple_of(12) {
        return None;
    }
    let mut file = call.file.to_vec();
    while let Some(shorter) = one_step(call, &file, &differs) {
        file = shorter;
    }
    (file.len() < call.file.len()).then_some(file)
}

/// Leaves out one record, or two that may be the ends of a block.
fn one_step(call: &Call, file: &[u8], differs: &impl Fn(&Call) -> bool) -> Option<Vec<u8>> {
    let count = file.len() / 12;
    let still = |shorter: &Vec<u8>| {
        let smaller = Call {
            file: shorter,
            ..call.clone()
        };
        differs(&smaller)
    };
    let singles = (0..count).map(|index| without(file, &[index]));
    let pairs = (0..count.min(40)).flat_map(|from| {
        (from + 1..count.min(from + 40)).map(move |to| without(file, &[from, to]))
    });
    singles.chain(pairs).find(still)
}

fn without(file: &[u8], left_out: &[usize]) -> Vec<u8> {
    let kept = file
        .chunks_exact(12)
        .enumerate()
        .filter(|(index, _)| !left_out.contains(index));
    kept.flat_map(|(_, record)| record.to_vec()).collect()
}
