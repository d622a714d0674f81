//! A smaller case that still shows a difference.

use super::case::Case;
use super::run::run;

/// Drops what comes behind the difference, then ever smaller pieces, as long as some difference
/// remains.
pub fn minimal(case: &Case) -> Case {
    let mut smallest = case.clone();
    truncate(&mut smallest);
    let mut piece = smallest.steps.len().div_ceil(2);
    while piece > 0 {
        let mut at = 0;
        while at < smallest.steps.len() {
            let mut smaller = smallest.clone();
            smaller.steps.drain(at..smallest.steps.len().min(at + piece));
            if truncate(&mut smaller) {
                smallest = smaller;
            } else {
                at += piece;
            }
        }
        piece /= 2;
    }
    smallest
}

/// Drops the steps behind the first difference; false where there is none.
fn truncate(case: &mut Case) -> bool {
    let difference = run(case).difference;
    if let Some((at, _)) = &difference {
        case.steps.truncate(at + 1);
    }
    difference.is_some()
}
