//! Times every question: the library and the plain implementation in
//! one run. Each line: question, input, library ns, plain ns, ratio.

use std::hint::black_box;

use second::gen::known;
use second::library;
use second::limits::{Refusal, ROWS, WORK};
use second::question::{Input, Question};
use second::race::breadth;
use second::race::inputs::{entries, Entry};
use second::race::timing::race;
use second::subject::{self, Lent, Subject};

/// Memory for every question's answer.
struct Memory {
    numbers: Vec<u32>,
    wide: Vec<u64>,
    bytes: Vec<u8>,
    given: [u32; 3],
}

impl Memory {
    fn new() -> Memory {
        let numbers = vec![0; WORK.max(11 * ROWS)];
        Memory { numbers, wide: vec![0; WORK], bytes: vec![0; 65_536], given: [0; 3] }
    }

    fn ask(&mut self, subject: &Subject, input: &Input, question: &Question) {
        let (room, all) = (question.room(), self.numbers.len());
        let mut lent = Lent {
            numbers: &mut self.numbers[..room.min(all)],
            wide: &mut self.wide,
            bytes: &mut self.bytes,
            given: &mut self.given,
        };
        let returned = subject.ask(black_box(input), black_box(question), &mut lent);
        let no_link = matches!(question, Question::Row { .. })
            && returned == Some(Refusal::new(14, 0).returned());
        assert!(
            returned == Some(0) || no_link,
            "a benchmark question has an answer, or no link joins the cues"
        );
    }
}

/// The worst line so far.
#[derive(Default)]
struct Worst {
    ratio: f64,
    line: String,
}

fn print_line(question: &str, input: &str, library: f64, plain: f64) -> f64 {
    let ratio = library / plain;
    println!("{question:<10} {input:<44} {library:>12.0} {plain:>12.0} {ratio:>7.2}");
    ratio
}

/// Times one entry with both implementations.
fn time(entry: &Entry, library: &Subject, worst: &mut Worst) {
    let plain = subject::plain();
    let mut memory = [Memory::new(), Memory::new()];
    let [one, other] = &mut memory;
    let turn = |time: usize| &entry.asked[time % entry.asked.len()];
    let mut run_plain = |time: usize| one.ask(&plain, &entry.lent, turn(time));
    let mut run_library = |time: usize| other.ask(library, &entry.lent, turn(time));
    let times = race(&mut [&mut run_plain, &mut run_library]);
    let ratio = print_line(entry.question, &entry.input, times[1], times[0]);
    if ratio > worst.ratio {
        *worst = Worst { ratio, line: format!("{} {}", entry.question, entry.input) };
    }
}

/// The nanoseconds of unfolding a long ring and searching breadth first, and of the library.
fn unfolded_and_folded(blocks: u32, library: &Subject) -> (f64, f64) {
    let rows = known::long_ring(blocks);
    let input = Input::Rows(rows.clone());
    let question = Question::Fewest { s: 1, t: 2, room: WORK };
    let mut memory = Memory::new();
    let mut search = |_| {
        let steps = breadth::fewest(black_box(&rows), 1, 2);
        assert_eq!(steps, Some(1 << blocks));
    };
    let unfolded = race(&mut [&mut search])[0];
    let folded = race(&mut [&mut |_| memory.ask(library, &input, &question)])[0];
    (unfolded, folded)
}

/// Unfolding and searching breadth first, in place of the plain implementation.
fn time_unfolding(library: &Subject) {
    for blocks in [10, 17, 23] {
        let (unfolded, folded) = unfolded_and_folded(blocks, library);
        let name = format!("unfolded long ring, {} cues", (1 << blocks) + 1);
        print_line("fewest", &name, folded, unfolded);
    }
    let wins = (1..10).find(|blocks| {
        let (unfolded, folded) = unfolded_and_folded(*blocks, library);
        folded < unfolded
    });
    if let Some(blocks) = wins {
        println!("the library beats unfolding from a long ring of {} cues on", (1 << blocks) + 1);
    }
}

fn main() {
    let library = library::subject();
    let mut worst = Worst::default();
    println!("{:<10} {:<44} {:>12} {:>12} {:>7}", "question", "input", "library", "plain", "ratio");
    for entry in entries() {
        time(&entry, &library, &mut worst);
    }
    time_unfolding(&library);
    println!("worst ratio {:.2}: {}", worst.ratio, worst.line);
}
