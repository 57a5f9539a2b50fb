//! Prints random shows with the naive tool's answers, as the data of the program `cases`:
//! `cases > ../crates/cases/data/random.txt`

use std::fmt::Write;
use std::ops::RangeInclusive;

use second::gen::prng::Prng;
use second::gen::{damage, padding, random, waits};
use second::limits::{Refusal, COLUMNS, GIVEN, PATH, WORK};
use second::naive::ask::Show;
use second::naive::file::print;
use second::question::{Answer, Question};

const SEED: u64 = 8;
/// Shows that are accepted, and rows that may be refused.
const WHOLE: usize = 100;
const DAMAGED: usize = 30;
/// Cues of a show, few enough that all pairs can be asked.
const CUES: RangeInclusive<u32> = 3..=8;
/// Pairs that are asked for the quickest way, each with a wait file.
const TIMED: usize = 7;

/// Numbers with spaces between. Many equal ones in a row are written as `7x5`.
fn list(numbers: &[u32]) -> String {
    let run = |same: &[u32]| match same.len() {
        1..=4 => vec![same[0].to_string(); same.len()].join(" "),
        many => format!("{}x{many}", same[0]),
    };
    numbers.chunk_by(|a, b| a == b).map(run).collect::<Vec<_>>().join(" ")
}

/// The question's name and what it is given. The program knows a question by its first letter.
fn asked(question: &Question) -> (&str, String) {
    let (word, numbers) = match *question {
        Question::Read { .. } => ("read", vec![]),
        Question::Write { .. } => ("write", vec![]),
        Question::Count => ("count", vec![]),
        Question::Locate { n, .. } => ("locate", vec![n]),
        Question::Number { ref path, own } => ("number", [&[own], path.as_slice()].concat()),
        Question::List { outward: true, v, n, .. } => ("out", vec![v, n]),
        Question::List { v, n, .. } => ("in", vec![v, n]),
        Question::Fewest { s, t, .. } => ("fewest", vec![s, t]),
        Question::Row { s, t, .. } => ("behind", vec![s, t]),
        Question::Quickest { s, t, ref waits, .. } => {
            return ("quickest", format!("{s} {t} {}", in_line(waits)))
        }
    };
    (word, list(&numbers))
}

/// A wait file in a line, with a semicolon for each line feed.
fn in_line(waits: &[u8]) -> String {
    let text = std::str::from_utf8(waits).expect("a wait file of digits");
    assert!(!text.contains([';', '|']));
    text.replace('\n', ";")
}

/// Every question but reading and writing, about a show or about refused rows. The last numbers
/// asked for are no cues.
fn questions(show: Option<&Show>) -> Vec<Question> {
    let mut all = vec![Question::Count, Question::Number { path: vec![1], own: 0 }];
    let cues = show.map_or(0, Show::count);
    for cue in show.map_or(&[][..], |show| &show.unfolding().cues) {
        all.push(Question::Number { path: cue.path.clone(), own: cue.own });
        all.push(Question::Number { path: cue.path.clone(), own: cue.own + 3 });
    }
    for n in (1..=cues).chain([0, cues + 1]) {
        all.push(Question::Locate { n, room: PATH + 1 });
        for (outward, room) in [(true, 1), (true, 9), (false, 1), (false, 9)] {
            all.push(Question::List { outward, v: n, n: 0, room });
            all.push(Question::List { outward, v: n, n: cues / 2, room: room / 9 });
        }
    }
    all.extend(pairs(cues, WORK, |s, t, room| Question::Fewest { s, t, room }));
    all.extend(pairs(cues, PATH, |s, t, room| Question::Row { s, t, room }));
    all
}

/// A question on two cues, which needs so much room: with too little, on every pair, and on numbers
/// that are no cues.
fn pairs(cues: u32, needed: usize, ask: fn(u32, u32, usize) -> Question) -> Vec<Question> {
    let mut all = vec![ask(1, 1, needed - 1)];
    for s in 1..=cues {
        all.extend((1..=cues).map(|t| ask(s, t, needed + 1)));
    }
    all.extend([(0, 1), (1, 0), (1, cues + 1), (cues + 1, 1)].map(|(s, t)| ask(s, t, needed)));
    all
}

/// The quickest way between some pairs, each with its wait file: one without room, one without a cue, one of four
/// with a file that may be refused.
fn timed(prng: &mut Prng, show: Option<&Show>) -> Vec<Question> {
    let cues = show.map_or(1, Show::count);
    let broken = waits::mixed();
    let mut all = Vec::new();
    for place in 0..TIMED {
        let (s, t) = (prng.within(1, cues), prng.within(1, cues));
        let (s, room) =
            (if place == 1 { cues + 1 } else { s }, WORK + place - usize::from(place == 0));
        let waits = match prng.one_in(4) {
            true => prng.pick(&broken).0.clone(),
            false => waits::short(prng),
        };
        all.push(Question::Quickest { s, t, waits, room });
    }
    all
}

/// The data so far. A work area with the content of the last case is not written again.
#[derive(Default)]
struct Data {
    text: String,
    content: String,
}

impl Data {
    fn case(&mut self, name: &str, question: &Question, answer: Result<Answer, Refusal>) {
        let (word, given) = asked(question);
        let (said, numbers) = match answer {
            Ok(answer) => ([&[0], answer.given.as_slice()].concat(), answer.numbers),
            Err(refusal) => (vec![refusal.number, refusal.place], Vec::new()),
        };
        // Reading gives the numbers of the show, which the data has.
        let read = matches!(question, Question::Read { .. });
        let content = if read { String::new() } else { list(&numbers) };
        let fewest = matches!(question, Question::Fewest { .. });
        let again = fewest && !content.is_empty() && content == self.content;
        let (said, room) = (list(&said), question.room());
        let shown = if again { "=" } else { &content };
        writeln!(self.text, "{name}|{word}|{given}|{room}|{said}|{shown}").expect("a string");
        self.content = content;
    }

    /// A show with all questions. The last case has the name. One file in four is padded.
    fn show(&mut self, name: &str, rows: &[u32], zeros: &mut Prng, times: &mut Prng) {
        let unpadded = print(rows.as_chunks().0);
        let file = match zeros.one_in(4) {
            true => padding::by_chance(zeros, &unpadded),
            false => unpadded.clone(),
        };
        let shown = std::str::from_utf8(&file).expect("a file is digits and commas");
        write!(self.text, "=\n{shown}").expect("a string");
        let show = Show::of_rows(rows);
        let answer = |question: &Question| {
            show.as_ref().map_err(|refusal| *refusal)?.answer(question, GIVEN)
        };
        let all = questions(show.as_ref().ok());
        for question in all.into_iter().chain(timed(times, show.as_ref().ok())) {
            self.case("", &question, answer(&question));
        }
        for room in [unpadded.len() - 1, unpadded.len() + 1] {
            let question = Question::Write { room };
            self.case("", &question, answer(&question));
        }
        let question = Question::Read { room: rows.len() + 1 };
        let read = Show::of_file(&file).and_then(|show| show.answer(&question, GIVEN));
        self.case(name, &question, read);
    }
}

/// A small random show.
fn small(prng: &mut Prng) -> Vec<u32> {
    loop {
        let shape = prng.pick(&random::SHAPES);
        let rows = random::show(prng, shape);
        if Show::of_rows(&rows).is_ok_and(|show| CUES.contains(&show.count())) {
            return rows;
        }
    }
}

/// Whole rows with some damage.
fn damaged(prng: &mut Prng) -> Vec<u32> {
    loop {
        let mut rows = small(prng);
        damage::rows(prng, &mut rows);
        let small = Show::of_rows(&rows).map_or(true, |show| CUES.contains(&show.count()));
        if small && rows.len().is_multiple_of(COLUMNS) && rows.len() < 40 * COLUMNS {
            return rows;
        }
    }
}

fn main() {
    let mut data = Data::default();
    let [prng, zeros, times] = &mut [0, 1, 2].map(|stream| Prng::new(SEED, stream));
    for case in 1..=WHOLE {
        data.show(&format!("random show {case}"), &small(prng), zeros, times);
    }
    for case in 1..=DAMAGED {
        data.show(&format!("changed rows {case}"), &damaged(prng), zeros, times);
    }
    print!("{}", data.text);
}
