//! Rows broken in every way: every question must refuse them by the number and at the place that
//! the naive tool's check gives, or answer.

use super::checker::{Checker, Kinds, Subjected};
use super::faults;
use super::outcome::Call;
use crate::gen::accepted::{self, Named};
use crate::gen::broken::{self, Change};
use crate::gen::prng::Prng;
use crate::gen::{damage, random};
use crate::limits::{Refusal, BYTES, COLUMNS, GIVEN, JOINS, PATH, ROWS, WAIT_NAMES, WORK};
use crate::naive::ask::Show;
use crate::naive::check::check;
use crate::naive::file::print;
use crate::question::{Input, Question};
use crate::subject;

/// A case with the show that it breaks.
pub type Prepared = (String, Box<dyn FnOnce(&mut Checker)>);

/// Shows of at most this many rows are asked every question each time, longer ones one in turn.
const SHORT: usize = 130;
/// Shows of at most this many rows are broken in two places, each with each.
const PAIRED: usize = 80;
/// How many shows are broken at random.
const RANDOM: usize = 20_000;

/// Every case: each accepted show broken in each way, then random shows broken at random.
pub fn cases(seed: u64) -> Vec<Prepared> {
    let mut cases: Vec<Prepared> = Vec::new();
    for named in accepted::short() {
        in_each_way(&mut cases, named);
    }
    for (name, base) in accepted::long() {
        cases.push(prepared(name, "some rows", move |checker| one_number_of_long(checker, &base)));
    }
    for (name, case) in faults::CASES {
        cases.push((format!("broken: {name}"), Box::new(case)));
    }
    let base = accepted::behind_desk();
    cases.push(prepared("behind the desk", "one number", move |checker| desk_rows(checker, &base)));
    cases.push(prepared("random shows", "at random", move |checker| at_random(checker, seed)));
    cases
}

fn prepared(name: &str, way: &str, case: impl FnOnce(&mut Checker) + 'static) -> Prepared {
    (format!("broken: {name}, {way}"), Box::new(case))
}

fn in_each_way(cases: &mut Vec<Prepared>, (name, base): Named) {
    let [values, moved, numbers, lengths, pairs] = [(); 5].map(|()| base.clone());
    cases.push(prepared(name, "one number", move |checker| one_number(checker, &values)));
    cases.push(prepared(name, "rows moved", move |checker| {
        ask_each(checker, broken::moved(&moved))
    }));
    cases.push(prepared(name, "blocks renumbered", move |checker| {
        ask_each(checker, broken::renumbered(&numbers));
    }));
    cases.push(prepared(name, "lengths", move |checker| {
        ask_each(checker, broken::resized(&lengths))
    }));
    if base.len() <= PAIRED * COLUMNS {
        cases.push(prepared(name, "two faults", move |checker| two_faults(checker, &pairs)));
    }
}

fn ask_each(checker: &mut Checker, shows: impl Iterator<Item = Vec<u32>>) {
    shows.for_each(|rows| ask(checker, rows));
}

/// The show itself, which must be accepted, and each change of each of its numbers.
fn one_number(checker: &mut Checker, base: &[u32]) {
    check(base).expect("what is to be broken is accepted");
    ask(checker, base.to_vec());
    let rows = 0..base.len() / COLUMNS;
    let changes = rows.flat_map(|row| broken::of_row(base, row));
    ask_each(checker, changes.map(|change| change.of(base)));
}

/// The same with some of the rows of a long show; and one number of each row, the column in turn,
/// and each row taken away or exchanged with the next.
fn one_number_of_long(checker: &mut Checker, base: &[u32]) {
    check(base).expect("what is to be broken is accepted");
    let rows = broken::some_rows(base).into_iter();
    let changes = rows.flat_map(|row| broken::of_row(base, row));
    let each = (0..base.len() / COLUMNS).flat_map(|row| {
        let place = row * COLUMNS + row % COLUMNS;
        [base[place].wrapping_add(1), 256].map(|value| Change { place, value })
    });
    ask_each(checker, changes.chain(each).map(|change| change.of(base)));
    ask_each(checker, broken::shifted(base));
}

/// Every change of a file that is read behind the desk's blocks.
fn desk_rows(checker: &mut Checker, base: &[u32]) {
    let rows = 0..base.len() / COLUMNS;
    let changes = rows.flat_map(|row| broken::of_row(base, row));
    let one = changes.map(|change| change.of(base));
    Show::of_desk_file(&print(base.as_chunks().0)).expect("what is to be broken is accepted");
    for rows in one.chain(broken::moved(base)).chain(broken::renumbered(base)) {
        let input = Input::Desk(print(rows.as_chunks().0));
        Subjected::new(checker, input).ask(Question::Read { room: ROWS * COLUMNS });
    }
}

/// Two faults at once, which one number each makes: any two in one row, and each check's in one row
/// with each check's in another. The first check that fails decides.
fn two_faults(checker: &mut Checker, base: &[u32]) {
    let rows = 0..base.len() / COLUMNS;
    let faults: Vec<Vec<Fault>> = rows.map(|row| faults_of(base, row)).collect();
    for (row, inside) in faults.iter().enumerate() {
        let behind = faults[row + 1..].iter().flat_map(|others| first_of_each(others));
        let behind: Vec<&Fault> = behind.collect();
        for one in first_of_each(inside) {
            behind.iter().for_each(|other| ask_one(checker, both(base, one, other)));
        }
        for (at, one) in inside.iter().enumerate() {
            let others = inside[at + 1..].iter();
            let others = others.filter(|other| other.change.place != one.change.place);
            others.for_each(|other| ask_one(checker, both(base, one, other)));
        }
    }
}

/// A change, the refusal that it leads to, and whether that is given at its own row.
struct Fault {
    change: Change,
    number: u32,
    here: bool,
}

impl Fault {
    fn is_like(&self, other: &Fault) -> bool {
        (self.number, self.here) == (other.number, other.here)
    }
}

fn both(base: &[u32], one: &Fault, other: &Fault) -> Vec<u32> {
    other.change.of(&one.change.of(base))
}

/// For each number of a row the first change that leads to each refusal.
fn faults_of(base: &[u32], row: usize) -> Vec<Fault> {
    let mut faults: Vec<Fault> = Vec::new();
    for change in broken::of_row(base, row) {
        let Err(Refusal { number, place }) = check(&change.of(base)) else { continue };
        let fault = Fault { change, number, here: place as usize == row + 1 };
        let same = |known: &Fault| known.change.place == change.place && known.is_like(&fault);
        if !faults.iter().any(same) {
            faults.push(fault);
        }
    }
    faults
}

/// Of the faults of a row those that are like none before them.
fn first_of_each(faults: &[Fault]) -> impl Iterator<Item = &Fault> {
    let first = |at: &usize| !faults[..*at].iter().any(|known| known.is_like(&faults[*at]));
    (0..faults.len()).filter(first).map(|at| &faults[at])
}

/// Small and larger random shows, damaged in one place to four.
fn at_random(checker: &mut Checker, seed: u64) {
    let prng = &mut Prng::new(seed, u64::MAX);
    for _ in 0..RANDOM {
        let shape = if prng.one_in(4) { &random::LARGER } else { prng.pick(&random::SHAPES) };
        let mut rows = random::show(prng, shape);
        for _ in 0..=prng.below(3) {
            damage::rows(prng, &mut rows);
        }
        ask(checker, rows);
    }
}

/// Asks every question about rows that may be broken, and reads every fourth show as a file too; about
/// many rows, asks for the count and one other question.
pub fn ask(checker: &mut Checker, rows: Vec<u32>) {
    if rows.len() > SHORT * COLUMNS {
        return ask_one(checker, rows);
    }
    let file = checker.turn.is_multiple_of(4).then(|| print(rows.as_chunks().0));
    let Some(mut asked) = Broken::counted(checker, rows) else { return };
    asked.others().into_iter().for_each(|question| asked.ask(question));
    if let Some(file) = file {
        Subjected::new(checker, Input::File(file)).ask(Question::Read { room: SHORT * COLUMNS });
    }
}

/// Asks for the count and one other question, each in its turn.
fn ask_one(checker: &mut Checker, rows: Vec<u32>) {
    let Some(mut asked) = Broken::counted(checker, rows) else { return };
    let others = asked.others();
    let [turn, many] = [asked.subjected.checker.turn, others.len()];
    asked.ask(others[turn % many].clone());
}

/// Rows that may be broken.
struct Broken<'a, 'b> {
    subjected: Subjected<'a, 'b>,
}

impl<'a, 'b> Broken<'a, 'b> {
    /// Asks for the count, and notes where the naive tool refuses the rows. Where the count is
    /// wrong nothing else is asked: who takes broken rows for a show may read anywhere.
    fn counted(checker: &'b mut Checker<'a>, rows: Vec<u32>) -> Option<Broken<'a, 'b>> {
        let differing = checker.differing;
        let mut subjected = Subjected::new(checker, Input::Rows(rows));
        if let (Err(refusal), Input::Rows(rows)) = (subjected.known.as_ref(), &subjected.input) {
            note(&mut subjected.checker.kinds, rows, *refusal);
        }
        subjected.checker.turn += 1;
        subjected.ask(Question::Count);
        (subjected.checker.differing == differing).then_some(Broken { subjected })
    }

    /// The other questions. Refused rows are often lent too little room: that is not looked at
    /// then.
    fn others(&self) -> [Question; 8] {
        let last = self.subjected.known.as_ref().map_or(1, |show| show.count());
        let short =
            self.subjected.known.is_err() && !self.subjected.checker.turn.is_multiple_of(17);
        let room = |exact: usize| if short { 2 } else { exact };
        let (path, work) = (room(PATH), room(WORK));
        [
            Question::Locate { n: last, room: path },
            Question::Number { path: Vec::new(), own: 1 },
            Question::List { outward: true, v: 1, n: 0, room: JOINS },
            Question::List { outward: false, v: last, n: 0, room: JOINS },
            Question::Fewest { s: 1, t: last, room: work },
            Question::Row { s: 1, t: last, room: path },
            Question::Quickest { s: 1, t: last, waits: WAIT_NAMES.to_vec(), room: work },
            Question::Write { room: room(BYTES) },
        ]
    }

    /// Refused rows are refused as by the naive tool. Accepted ones may be too many to unfold:
    /// there the plain implementation answers.
    fn ask(&mut self, question: Question) {
        let Subjected { checker, input, known } = &mut self.subjected;
        let call = Call { question, given: GIVEN };
        match known {
            Err(refusal) => checker.compare(input, call, &Err(*refusal)),
            Ok(_) => checker.compare_to(&subject::plain(), input, call),
        };
    }
}

fn note(kinds: &mut Kinds, rows: &[u32], refusal: Refusal) {
    let at = (refusal.place as usize).checked_sub(1);
    let kind = at.map_or(3, |row| rows[row * COLUMNS + 1].min(3));
    kinds[refusal.number as usize][kind as usize] += 1;
}

/// Each refusal with the kinds of row at which it can be given.
const WANTED: [(usize, &[usize]); 7] = [
    (4, &[3]),
    (5, &[0, 1, 2, 3]),
    (6, &[0, 1, 2]),
    (7, &[1, 2]),
    (8, &[1, 2]),
    (9, &[0]),
    (10, &[0]),
];

/// For each refusal and each kind of row, whether it is as it must be: the refusal was given there
/// if it can be, and was not if it cannot.
pub fn noted(kinds: &Kinds) -> Vec<(String, bool)> {
    let mut noted = Vec::new();
    for (number, wanted) in WANTED {
        for (kind, shows) in kinds[number].iter().enumerate() {
            let name = format!("broken: refusal {number} at kind {kind}");
            noted.push((name, wanted.contains(&kind) == (*shows > 0)));
        }
    }
    noted
}
