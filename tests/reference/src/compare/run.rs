//! Runs a case on the store under test, the reference store and the ledger.

use super::arena::Arena;
use super::case::{Case, Step};
use super::returned::{Returned, Tally};
use super::subject;
use crate::call::{Answer, Call};
use crate::ledger::Ledger;
use crate::moves::{bytes_of, moves_in, Move, MOST_MOVES, MOVE};
use crate::record::FIELD;
use crate::store;

/// A field that stands nowhere in a generated store.
const MARK: &[u8; FIELD] = b"the field lies here!";

pub struct Outcome {
    pub tally: Tally,
    /// The step with the first difference, and what differs.
    pub difference: Option<(usize, String)>,
}

struct Run {
    subject: Arena,
    reference: Arena,
    lent: usize,
    /// The ledger, as long as nothing but calls has changed the slice since the layout.
    ledger: Option<Ledger>,
    tally: Tally,
}

pub fn run(case: &Case) -> Outcome {
    let arena = Arena::new(case.front, case.capacity());
    let mut run = Run {
        subject: arena.clone(),
        reference: arena,
        lent: 0,
        ledger: None,
        tally: Tally::default(),
    };
    let mut difference = None;
    for (at, step) in case.steps.iter().enumerate() {
        if let Err(words) = run.step(step) {
            difference = Some((at, words));
            break;
        }
    }
    if difference.is_none() {
        difference = run.picture_differs().map(|words| (case.steps.len() - 1, words));
    }
    Outcome { tally: run.tally, difference }
}

impl Run {
    fn step(&mut self, step: &Step) -> Result<(), String> {
        match step {
            Step::Lend(length) => {
                self.lent = *length;
                self.ledger = None;
            }
            Step::Write { at, bytes } => {
                self.subject.write(*at, bytes);
                self.reference.write(*at, bytes);
                self.ledger = None;
            }
            Step::Call(call) => self.call(call)?,
        }
        Ok(())
    }

    fn call(&mut self, call: &Call) -> Result<(), String> {
        let mut lent = lent_to(self.reference.slice(self.lent), call);
        let mut expected_lent = lent.clone();
        let expected = perform(self.reference.slice(self.lent), call, &mut expected_lent);
        let returned = subject::call(&mut self.subject, self.lent, call, &mut lent);
        if returned != expected {
            return Err(format!("{returned}, expected {expected}"));
        }
        self.tally.add(call.kind(), returned);
        self.subject.same(&self.reference, "store")?;
        lent.same(&expected_lent, "field, output or list")?;
        if let Call::ReadInPlace { key } = call {
            self.place(*key)?;
        }
        self.ask_ledger(call, returned, &mut lent)
    }

    /// The part that read in place hands back lies where the reference finds the field: a mark
    /// written there is what comes back. Fields of records are no part of soundness.
    fn place(&mut self, key: u32) -> Result<(), String> {
        let bytes = self.reference.slice(self.lent);
        let start = bytes.as_ptr() as usize;
        let part = store::read_in_place(bytes, key);
        if part.is_empty() {
            return Ok(());
        }
        let at = part.as_ptr() as usize - start;
        let field = part.to_vec();
        let call = Call::ReadInPlace { key };
        let mut lent = lent_to(bytes, &call);
        self.subject.write(at, MARK);
        subject::call(&mut self.subject, self.lent, &call, &mut lent);
        self.subject.write(at, &field);
        if lent.slice(MARK.len()) != MARK {
            return Err(format!("the part handed back does not start at byte {at}"));
        }
        Ok(())
    }

    fn ask_ledger(
        &mut self,
        call: &Call,
        returned: Returned,
        lent: &mut Arena,
    ) -> Result<(), String> {
        if let Call::LayOut { b } = call {
            let opened = Ledger::open(*b, self.lent);
            let number = opened.as_ref().err().copied().unwrap_or(0);
            self.ledger = opened.ok().or(self.ledger.take());
            return agree(returned, Returned::Number(number));
        }
        let Some(ledger) = &mut self.ledger else { return Ok(()) };
        let (expected, bytes) = match ledger.perform(call) {
            Answer::Number(number) => (Returned::Number(number), Vec::new()),
            Answer::Read(number, field) => {
                (Returned::Number(number), field.map_or(Vec::new(), |field| field.to_vec()))
            }
            Answer::Part(part) => (Returned::Part(part.len()), part),
            Answer::List(number, count, records) => {
                (Returned::Counted(number, count as usize), records)
            }
            Answer::Plan(number, count, moves) => {
                (Returned::Counted(number, count), bytes_of(&moves))
            }
        };
        agree(returned, expected)?;
        if lent.slice(bytes.len()) != bytes {
            return Err("the bytes handed back are not the ledger's".into());
        }
        Ok(())
    }

    fn picture_differs(&mut self) -> Option<String> {
        let picture = self.ledger.as_ref()?.picture();
        let same = *self.subject.slice(picture.len()) == picture[..];
        (!same).then(|| "the store is not the ledger's picture".into())
    }
}

/// The arena of the field, the output or the list of moves of a call on a store.
fn lent_to(store: &[u8], call: &Call) -> Arena {
    match call {
        Call::Teach { field, .. } | Call::Correct { field, .. } => Arena::holding(31, field),
        Call::Read { out, .. } => Arena::new(29, *out),
        Call::ReadInPlace { .. } => Arena::new(27, FIELD),
        Call::List { out } => Arena::new(25, *out),
        Call::Plan { entries } => Arena::new(23, MOVE * (entries + MOST_MOVES)),
        Call::Commit { moves, .. } => committed_list(store, moves),
        _ => Arena::new(0, 0),
    }
}

/// The arena of a list that is committed. Behind the list, in memory that is not lent, it goes on with
/// the entries that the plan has there, so that it shows whether they are read.
fn committed_list(store: &[u8], moves: &[Move]) -> Arena {
    let mut list = Arena::new(21, MOVE * (moves.len() + MOST_MOVES));
    let mut plan = [Move::from([0; MOVE]); MOST_MOVES];
    let (_, count) = store::plan(store, &mut plan);
    list.write(0, &bytes_of(&plan[..count]));
    list.write(0, &bytes_of(moves));
    list
}

fn perform(bytes: &mut [u8], call: &Call, lent: &mut Arena) -> Returned {
    match call {
        Call::Read { key, out } => Returned::Number(store::read(bytes, *key, lent.slice(*out))),
        Call::ReadInPlace { key } => {
            let part = store::read_in_place(bytes, *key);
            lent.write(0, part);
            Returned::Part(part.len())
        }
        Call::List { out } => {
            let (number, count) = store::list(bytes, lent.slice(*out));
            Returned::Counted(number, count as usize)
        }
        Call::Plan { entries } => {
            let mut moves = moves_in(lent.slice(MOVE * entries));
            let (number, count) = store::plan(bytes, &mut moves);
            lent.write(0, &bytes_of(&moves));
            Returned::Counted(number, count)
        }
        _ => Returned::Number(store::perform(bytes, call).number().expect("a number is returned")),
    }
}

fn agree(returned: Returned, ledger: Returned) -> Result<(), String> {
    if returned == ledger {
        return Ok(());
    }
    Err(format!("{returned}, by the ledger {ledger}"))
}
