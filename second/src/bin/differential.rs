//! Compares the library, or the plain implementation, with the naive tool.
//!
//! `differential [--seed N] [--count N] [--case N] [--against plain|library]`

use std::process::ExitCode;

use second::compare::checker::{Census, Checker, Kinds};
use second::compare::{broken, fixed, random, report};
use second::library;
use second::limits::REFUSALS;
use second::subject::{self, Subject};

struct Words {
    seed: u64,
    count: u64,
    case: Option<u64>,
    against: String,
}

impl Words {
    fn parse() -> Result<Words, String> {
        let mut words = Words { seed: 1, count: 20_000, case: None, against: "library".into() };
        let mut rest = std::env::args().skip(1);
        while let Some(word) = rest.next() {
            let value = rest.next().ok_or(format!("{word} lacks its value"))?;
            let number = || value.parse().map_err(|_| format!("{word} {value}: not a number"));
            match word.as_str() {
                "--seed" => words.seed = number()?,
                "--count" => words.count = number()?,
                "--case" => words.case = Some(number()?),
                "--against" => words.against = value,
                _ => return Err(format!("unknown word {word}")),
            }
        }
        Ok(words)
    }

    fn subject(&self) -> Result<Subject, String> {
        match self.against.as_str() {
            "plain" => Ok(subject::plain()),
            "library" => Ok(library::subject()),
            other => Err(format!("unknown implementation {other}")),
        }
    }
}

/// Counts cases and prints the failing ones.
struct Tally {
    seed: u64,
    passed: u64,
    failed: u64,
    census: Census,
    kinds: Kinds,
}

impl Tally {
    fn run(&mut self, subject: &Subject, name: &str, case: impl FnOnce(&mut Checker)) {
        let mut checker = Checker::new(subject);
        case(&mut checker);
        self.census.iter_mut().zip(checker.census).for_each(|(all, calls)| *all += calls);
        let kinds = self.kinds.as_flattened_mut().iter_mut();
        kinds.zip(checker.kinds.as_flattened()).for_each(|(all, shows)| *all += shows);
        let calls: u64 = checker.census.iter().sum();
        let first = checker.failure.as_ref().map(|failure| report::text(failure));
        match first {
            Some(text) => {
                let differing = checker.differing;
                self.fail(name, &format!("{differing} of {calls} calls differ, the first:\n{text}"))
            }
            None if calls == 0 => self.fail(name, "nothing was asked"),
            None => self.passed += 1,
        }
    }

    fn fail(&mut self, name: &str, text: &str) {
        self.failed += 1;
        println!("FAILED: seed {}, case {name}\n{text}", self.seed);
    }

    /// Rows broken in every way, and that every refusal of rows was given where it can be.
    fn run_broken(&mut self, subject: &Subject) {
        for (name, case) in broken::cases(self.seed) {
            self.run(subject, &name, case);
        }
        for (name, as_wanted) in broken::noted(&self.kinds) {
            match as_wanted {
                true => self.passed += 1,
                false => self.fail(&name, "not where it can be given, or where it cannot"),
            }
        }
    }
}

fn compare(words: &Words) -> Result<Tally, String> {
    let subject = words.subject()?;
    let (census, kinds) = ([0; REFUSALS + 1], Kinds::default());
    let mut tally = Tally { seed: words.seed, passed: 0, failed: 0, census, kinds };
    let cases = match words.case {
        Some(case) => case..case + 1,
        None => {
            tally.run_broken(&subject);
            for (name, case) in fixed() {
                tally.run(&subject, name, case);
            }
            0..words.count
        }
    };
    for case in cases {
        let random = |checker: &mut Checker| random::run(checker, words.seed, case);
        tally.run(&subject, &case.to_string(), random);
    }
    Ok(tally)
}

fn main() -> ExitCode {
    match Words::parse().and_then(|words| compare(&words)) {
        Ok(tally) => {
            println!("calls answered, then refused by 1 to {REFUSALS}: {:?}", tally.census);
            println!(
                "broken shows refused by 4 to 10, by the kind of the row: {:?}",
                &tally.kinds[4..]
            );
            println!("{} passed, {} failed", tally.passed, tally.failed);
            ExitCode::from(u8::from(tally.failed > 0))
        }
        Err(problem) => {
            println!("differential: {problem}");
            println!("0 passed, 1 failed");
            ExitCode::FAILURE
        }
    }
}
