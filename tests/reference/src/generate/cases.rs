//! Cases for the comparison: histories, some with wrong parity, and damaged stores.

use super::arguments::Arguments;
use super::damage::{all_parity_wrong, damage, wrong_parity};
use super::{history, losing, losses, short_history, LOSSES};
use crate::call::{Call, Kind, KINDS};
use crate::compare::case::{Case, Step};
use crate::ledger::Ledger;
use crate::random::Random;
use crate::store;
use crate::store::layout::length;

/// The ledger and the bytes after the calls of a generated history.
fn after(calls: &[Call]) -> (Ledger, Vec<u8>) {
    let Call::LayOut { b } = calls[0] else { panic!("a history starts with a layout") };
    let mut bytes = vec![0; length(b as usize)];
    let mut ledger = Ledger::open(b, bytes.len()).expect("the layout is granted");
    for call in calls {
        store::perform(&mut bytes, call);
        if !matches!(call, Call::LayOut { .. }) {
            ledger.perform(call);
        }
    }
    (ledger, bytes)
}

/// Lends a slice and lays it out, at times after a refused layout or in a longer slice.
fn opening(random: &mut Random, b: u32) -> Vec<Step> {
    let length = length(b as usize);
    let mut steps = Vec::new();
    if random.chance(1, 4) {
        steps.push(Step::Lend(random.pick(&[0, 1, 35, 36, length / 2, length - 1])));
        steps.push(Step::Call(Call::LayOut { b }));
    }
    steps.push(Step::Lend(length + random.pick(&[0, 0, 1, 100])));
    steps.push(Step::Call(Call::LayOut { b }));
    steps
}

fn steps_of(calls: &[Call]) -> impl Iterator<Item = Step> + '_ {
    calls.iter().cloned().map(Step::Call)
}

fn case(random: &mut Random, calls: &[Call]) -> Case {
    let Call::LayOut { b } = calls[0] else { panic!("a history starts with a layout") };
    let mut steps = opening(random, b);
    steps.extend(steps_of(&calls[1..]));
    Case { front: 64 + random.below(16), steps }
}

/// A choice of losses, then all parity becomes wrong, and the same losses again: what is rebuilt then
/// shows from which members.
fn losses_case(random: &mut Random, choice: u64) -> Case {
    let calls = losses(choice);
    let (_, bytes) = after(&calls);
    let mut case = case(random, &calls);
    case.steps.extend(all_parity_wrong(random, &bytes));
    case.steps.extend(steps_of(&losing(choice)));
    case
}

/// The call behind which parity becomes wrong: any, or in about half of the cases, where there is one,
/// the call before a unit goes out.
fn parity_wrong_behind(random: &mut Random, calls: &[Call]) -> usize {
    let any = random.below(calls.len());
    let outs = (1..calls.len()).filter(|&at| calls[at].kind() == Kind::Out);
    let mut places: Vec<usize> = outs.map(|at| at - 1).collect();
    places.resize(2 * places.len() + 1, any);
    random.pick(&places)
}

/// A history, the first ones by every choice of losses. In one of four of the others, parity bytes
/// become wrong on the way.
pub fn history_case(index: u64) -> Case {
    let mut random = Random::new(0x4849_5354_0000 + index);
    if index < LOSSES {
        return losses_case(&mut random, index);
    }
    let calls = history(index);
    if !random.chance(1, 4) {
        return case(&mut random, &calls);
    }
    let (before, rest) = calls.split_at(1 + parity_wrong_behind(&mut random, &calls));
    let (_, bytes) = after(before);
    let mut case = case(&mut random, before);
    case.steps.extend(wrong_parity(&mut random, &bytes));
    case.steps.extend(steps_of(rest));
    case
}

/// A short history, damage, then every kind of call on what is left.
pub fn damaged_case(index: u64) -> Case {
    let mut random = Random::new(0x4441_4D41_0000 + index);
    let calls = short_history(0x1000_0000 + index);
    let (ledger, bytes) = after(&calls);
    let mut case = case(&mut random, &calls);
    for _ in 0..random.pick(&[1, 1, 1, 2, 3]) {
        case.steps.extend(damage(&mut random, &bytes));
    }
    let mut arguments = Arguments::new(random, 2 * ledger.b * ledger.units());
    arguments.asked = ledger.plan();
    let probes: Vec<Call> = KINDS.iter().map(|&kind| arguments.call(kind, &ledger)).collect();
    let start = arguments.random.below(probes.len());
    case.steps.extend(steps_of(&probes[start..]));
    case.steps.extend(steps_of(&probes[..start]));
    case
}
