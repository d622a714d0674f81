//! Compares the store and the byte coder under their C names with the reference:
//! `compare [--first] [HISTORIES [DAMAGED [SEGMENTS [REBUILDINGS]]]]`. Rebuildings at every choice of
//! columns come beside those, and the units of keys at every number of units.
//! The last line counts the differences; the exit status is 1 if there are any. With --first no more
//! cases are taken up once there is one.

use reference::compare::{
    compare_code, compare_segments, compare_units, minimal, run, SegmentsOutcome, Tally,
};
use reference::generate::cases::{damaged_case, history_case};
use std::sync::atomic::{AtomicBool, AtomicUsize, Ordering};
use std::{env, process, thread};

/// How many random keys have their units compared.
const RANDOM_KEYS: usize = 20_000;

/// What the cases gave.
#[derive(Default)]
struct Total {
    tally: Tally,
    /// Cases with a difference.
    differing: Vec<usize>,
}

fn main() {
    let mut words = env::args().skip(1).peekable();
    let first_alone = words.next_if(|word| word == "--first").is_some();
    let mut counts = words.map(|word| word.parse().expect("a number of cases"));
    let histories = counts.next().unwrap_or(6_000);
    let damaged = counts.next().unwrap_or(24_000);
    let segments = counts.next().unwrap_or(24_000);
    let rebuildings = counts.next().unwrap_or(200_000);
    let differ = [report_units(), report_code(rebuildings), report_segments(segments)];
    let beside_calls = differ.into_iter().filter(|&differs| differs).count();
    let stop = AtomicBool::new(first_alone && beside_calls > 0);
    let total = compare(histories, damaged, first_alone, &stop);
    print!("{}", total.tally);
    if let Some(&first) = total.differing.iter().min() {
        print_difference(first, histories);
    }
    let calls = total.tally.calls();
    let differences = total.differing.len() + beside_calls;
    let cases = match stop.into_inner() {
        true => "up to a difference".into(),
        false => format!("{histories} histories, {damaged} damaged stores"),
    };
    println!("compared: {cases}, {calls} calls, {differences} differences");
    process::exit((differences > 0) as i32);
}

/// Compares where keys lie; true where it differs.
fn report_units() -> bool {
    let units = compare_units(RANDOM_KEYS);
    println!("the units of {} keys, of 1 to 16 units", units.keys);
    if let Some(words) = &units.difference {
        println!("the unit of a key differs: {words}");
    }
    units.difference.is_some()
}

/// Compares the code layer; true where it differs.
fn report_code(rebuildings: usize) -> bool {
    let code = compare_code(rebuildings);
    println!("the matrix, and {} rebuildings, {} of them granted", code.compared, code.granted);
    if let Some(words) = &code.difference {
        println!("the code layer differs: {words}");
    }
    code.difference.is_some()
}

/// Compares the byte coder; true where it differs.
fn report_segments(count: usize) -> bool {
    let outcome = compare_segments(count);
    let SegmentsOutcome { granted, bad, beyond, .. } = outcome;
    println!("all products, and {count} segments: {granted} granted, {bad} refused with 2, {beyond} with 8");
    if let Some(words) = &outcome.product {
        println!("the byte coder differs: {words}");
    }
    if let Some((segment, words)) = &outcome.difference {
        println!("the byte coder differs: {words}; {segment}");
    }
    outcome.differs()
}

fn case(index: usize, histories: usize) -> reference::compare::case::Case {
    if index < histories {
        history_case(index as u64)
    } else {
        damaged_case((index - histories) as u64)
    }
}

/// Runs all cases, on as many threads as there are processors; or, where `first_alone` says so, until
/// one differs, which makes `stop` true.
fn compare(histories: usize, damaged: usize, first_alone: bool, stop: &AtomicBool) -> Total {
    let next = AtomicUsize::new(0);
    let work = || {
        let mut total = Total::default();
        loop {
            let index = next.fetch_add(1, Ordering::Relaxed);
            if index >= histories + damaged || stop.load(Ordering::Relaxed) {
                return total;
            }
            let outcome = run(&case(index, histories));
            total.tally.join(outcome.tally);
            if outcome.difference.is_some() {
                total.differing.push(index);
                stop.fetch_or(first_alone, Ordering::Relaxed);
            }
        }
    };
    let threads = thread::available_parallelism().map_or(1, |n| n.get());
    thread::scope(|scope| {
        let workers: Vec<_> = (0..threads).map(|_| scope.spawn(work)).collect();
        let totals = workers.into_iter().map(|worker| worker.join().expect("a worker panicked"));
        totals.reduce(joined).expect("at least one thread")
    })
}

fn joined(mut a: Total, b: Total) -> Total {
    a.tally.join(b.tally);
    a.differing.extend(b.differing);
    a
}

fn print_difference(index: usize, histories: usize) {
    let name = if index < histories { "history" } else { "damaged store" };
    let number = if index < histories { index } else { index - histories };
    let smallest = minimal(&case(index, histories));
    let (_, words) = run(&smallest).difference.expect("the smaller case differs too");
    println!("{name} {number}, made smaller, differs at its last step: {words}");
    print!("{smallest}");
}
