//! Inputs of hallrun.

use super::history;
use crate::call::{Call, Kind};
use crate::hallrun::line_of;
use crate::random::Random;

/// An input: a history as lines, with unreadable ones between; at times longer than 4,096 bytes,
/// without the last 0A, or with calls before the layout.
pub fn input(index: u64) -> Vec<u8> {
    let mut random = Random::new(0x4C49_4E45_0000 + index);
    let calls = history(0x2000_0000 + index);
    let mut lines = chosen(&mut random, &calls);
    if random.chance(1, 4) {
        lines.rotate_left(1);
    }
    for line in &mut lines {
        if random.chance(1, 16) {
            spoil(&mut random, line);
        }
    }
    let mut input = lines.join(&b'\n');
    if random.chance(3, 4) {
        input.push(b'\n');
    }
    input
}

/// The lines of a history, thinned where it is long, so that late calls come within the input. A grow
/// stands for a commit, which has no line.
fn chosen(random: &mut Random, calls: &[Call]) -> Vec<Vec<u8>> {
    let teaches = calls.iter().filter(|call| call.kind() == Kind::Teach).count();
    let most = random.pick(&[25, 45, 85]);
    let kept = |random: &mut Random, call: &Call| {
        call.kind() != Kind::Teach || teaches < most || random.chance(most, teaches)
    };
    let with_line = |call| if matches!(call, &Call::Commit { .. }) { &Call::Grow } else { call };
    let calls = calls.iter().map(with_line).filter(|call| kept(random, call));
    let lines = calls.filter_map(line_of);
    lines.map(String::into_bytes).collect()
}

/// Makes a line unreadable in most cases.
fn spoil(random: &mut Random, line: &mut Vec<u8>) {
    let at = random.below(line.len());
    match random.below(10) {
        0 => line.clear(),
        1 => line.push(b' '),
        2 => line.push(b'\r'),
        3 => line.insert(0, b' '),
        4 => line.insert(at, b' '),
        5 => line.make_ascii_lowercase(),
        6 => line.truncate(at),
        7 => line[at] = b'\t',
        8 => line.push(b'0'),
        _ => line[at] = random.next_u64() as u8,
    }
}
