//! "The program hallrun".

mod line;

use crate::call::{hex, Answer, Call};
use crate::record::{KEY, RECORD};
use crate::store;
pub use line::parse;

const INPUT: usize = 4096;
const STORE: usize = 52_260;
const LIST: usize = 1024 * RECORD;

/// What hallrun prints for an input.
pub fn run(input: &[u8]) -> String {
    answers(input).into_iter().map(|(_, answer)| answer).collect()
}

/// Each line of an input with what hallrun prints for it.
pub fn answers(input: &[u8]) -> Vec<(&[u8], String)> {
    let mut bytes = vec![0; STORE];
    let lines = lines(&input[..input.len().min(INPUT)]);
    lines.into_iter().map(|line| (line, answer(&mut bytes, line))).collect()
}

/// The lines of an input; a final 0A opens no further line.
fn lines(input: &[u8]) -> Vec<&[u8]> {
    let mut lines: Vec<&[u8]> = input.split(|&byte| byte == 0x0A).collect();
    if lines.last().is_some_and(|last| last.is_empty()) {
        lines.pop();
    }
    lines
}

fn answer(bytes: &mut [u8], line: &[u8]) -> String {
    let Some(call) = parse(line, LIST) else { return "10\n".into() };
    match store::perform(bytes, &call) {
        Answer::Number(number) | Answer::Read(number, None) => format!("{number}\n"),
        Answer::Read(number, Some(field)) => format!("{number} {}\n", hex(&field)),
        Answer::List(number, _, records) => format!("{number}\n{}", listing(bytes, &records)),
        Answer::Part(_) => unreachable!("no line reads in place"),
        Answer::Plan(..) => unreachable!("no line asks for a plan"),
    }
}

/// A line for each record of a list: unit, rank, key, field.
fn listing(bytes: &[u8], records: &[u8]) -> String {
    let mut ranks = [0; 16];
    let line = |record: &[u8]| {
        let key = u32::from_be_bytes(record[..KEY].try_into().unwrap());
        let unit = store::layout::unit_of(bytes[6] as usize, key);
        ranks[unit] += 1;
        format!("{unit:02X} {:02X} {key:08X} {}\n", ranks[unit], hex(&record[KEY..]))
    };
    records.chunks_exact(RECORD).map(line).collect()
}

/// The line of a call, where it has one. The program's list buffer is one for all lines.
pub fn line_of(call: &Call) -> Option<String> {
    call.has_line().then(|| match call {
        Call::List { .. } => "P".into(),
        _ => call.to_string(),
    })
}
