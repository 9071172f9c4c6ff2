//! Stop ticks worth trying.

use crate::random::Random;

/// Ticks about the ends of SAVEs and of the run, and some others.
pub fn chosen(random: &mut Random, save_ends: &[u32], end: u32) -> Vec<u32> {
    let mut ticks = vec![end.saturating_sub(1), end + random.between(0, 1)];
    if !save_ends.is_empty() {
        let save = random.pick(save_ends);
        ticks.extend([save - 1, save, save + 1]);
    }
    ticks.push(random.between(0, end));
    ticks.push(random.between(0, end));
    if random.chance(1, 8) {
        ticks.extend([0, u32::MAX, end + random.between(2, 1000)]);
        // Before the end again if the high bits were lost.
        let early = random.between(0, end);
        ticks.extend([early + (1 << 24), early + (1 << 31)]);
    }
    ticks
}
