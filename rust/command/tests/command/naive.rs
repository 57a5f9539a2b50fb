//! Answers held to the naive tool's, on named and random shows.

use second::gen::prng::Prng;
use second::gen::{desk, edges, known, padding, random, waits};
use second::limits::{DESK_ROWS, PATH, WORK};
use second::naive::ask::Show;
use second::naive::file::print;
use second::naive::print::printed;
use second::question::{self, Answer};
use show_command::commands::Question;
use show_command::problem::Problem;
use show_command::way::Way;

use crate::common::{asked, file_of, said, written, NAMES};

fn random_show(seed: u64, case: u64) -> Vec<u32> {
    let prng = &mut Prng::new(seed, case);
    let shape = if prng.one_in(8) { &random::LARGER } else { prng.pick(&random::SHAPES) };
    random::show(prng, shape)
}

#[test]
fn links_are_those_that_the_naive_tool_prints() {
    let mut shows = vec![
        known::ring(),
        known::tower(31),
        known::knot(),
        known::long_ring(8),
        known::long_ring(30),
        known::labelled(1000),
        known::labelled(1001),
        known::all_joins(),
        known::deep(true),
        known::deep_join(),
        known::star(9, true),
        known::full(),
        known::millions(),
    ];
    shows.extend(edges::bases());
    shows.extend((0..400).map(|case| random_show(21, case)));
    for rows in shows {
        let file = file_of(&rows);
        let links = asked(Way::Alone, &file, &Question::Links).expect("an accepted show");
        assert!(links == printed(&file), "{}", String::from_utf8_lossy(&file));
    }
}

#[test]
fn the_process_prints_the_same_links() {
    let shows = (0..40).map(|case| random_show(22, case)).chain([known::labelled(1000)]);
    for rows in shows {
        let file = file_of(&rows);
        assert_eq!(said(&["links", "-"], &file), (0, printed(&file), String::new()));
    }
}

/// The naive tool's question for one of the command's.
fn naive(question: &Question) -> question::Question {
    match *question {
        Question::Locate(n) => question::Question::Locate { n, room: PATH },
        Question::Number { ref path, own } => {
            question::Question::Number { path: path.clone(), own }
        }
        Question::Out(v) => question::Question::List { outward: true, v, n: 0, room: 1000 },
        Question::In(v) => question::Question::List { outward: false, v, n: 0, room: 1000 },
        Question::Fewest(s, t) => question::Question::Fewest { s, t, room: WORK },
        Question::Row(s, t) => question::Question::Row { s, t, room: PATH },
        Question::Quickest { ref waits, s, t } => {
            let waits = std::fs::read(waits).expect("a wait file");
            question::Question::Quickest { s, t, waits, room: WORK }
        }
        ref other => panic!("the naive tool is not asked for {other:?}"),
    }
}

/// A file, how it is read, and the show that it is to the naive tool.
struct Read {
    way: Way,
    file: Vec<u8>,
    show: Show,
}

impl Read {
    fn alone(rows: &[u32]) -> Read {
        let (file, show) = (file_of(rows), Show::of_rows(rows).expect("an accepted show"));
        Read { way: Way::Alone, file, show }
    }

    fn desk(own: &[u32]) -> Read {
        let file = file_of(own);
        let show = Show::of_desk_file(&file).expect("an accepted show");
        Read { way: Way::Desk, file, show }
    }

    /// The line of a row, where it is not one of the desk, and its values; in the file they are the same.
    fn row(&self, row: u32) -> (String, String) {
        let before = if self.way == Way::Desk { DESK_ROWS as u32 } else { 0 };
        let values = self.show.rows[row as usize - 1].map(|value| value.to_string()).join(",");
        let Some(own) = row.checked_sub(before).filter(|own| *own > 0) else {
            return ("-".to_string(), values);
        };
        let file = std::str::from_utf8(&self.file).expect("a file is digits and commas");
        assert_eq!(file.lines().nth(own as usize), Some(&values[..]));
        ((own + 1).to_string(), values)
    }
}

/// The naive tool's answer as the command prints it.
fn text(read: &Read, question: &Question, Answer { given, numbers, .. }: Answer) -> String {
    let lines = |numbers: &[u32]| numbers.iter().map(|cue| format!("{cue}\n")).collect::<String>();
    let steps: Vec<String> = numbers.iter().map(u32::to_string).collect();
    let path = if steps.is_empty() { "-".to_string() } else { steps.join(".") };
    match question {
        Question::Locate(_) => {
            format!("depth,block,own,path\n{},{},{},{path}\n", given[0], given[1], given[2])
        }
        Question::Row(..) => {
            let (row, (line, values)) = (given[0], read.row(given[0]));
            format!("row,line,depth,path,{NAMES}{row},{line},{},{path},{values}\n", given[1])
        }
        Question::Number { .. } => format!("cue\n{}\n", given[0]),
        Question::Quickest { .. } if given[0] == 0 => "quickest,time\nnone,-\n".to_string(),
        Question::Quickest { .. } => {
            let tenths = u64::from(given[2]) << 32 | u64::from(given[1]);
            format!("quickest,time\n{tenths},{}\n", clock(tenths))
        }
        Question::Out(_) => format!("to\n{}", lines(&numbers)),
        Question::In(_) => format!("from\n{}", lines(&numbers)),
        _ if given[0] == 0 => "fewest\nnone\n".to_string(),
        _ => format!("fewest\n{}\n", given[1]),
    }
}

/// Minutes and seconds, behind the hours where there are any.
fn clock(tenths: u64) -> String {
    let seconds = tenths / 10;
    let hours = if seconds < 3600 { String::new() } else { format!("{}:", seconds / 3600) };
    let width = if seconds < 3600 { 0 } else { 2 };
    format!("{hours}{:0width$}:{:02}.{}", seconds / 60 % 60, seconds % 60, tenths % 10)
}

/// The answer of both, or the number of the refusal.
fn hold(read: &Read, question: &Question) {
    let expected = match read.show.answer(&naive(question), 3) {
        Ok(answer) => Ok(text(read, question, answer)),
        Err(refusal) => Err(format!("(refusal {})", refusal.number)),
    };
    let answered = asked(read.way, &read.file, question).map_err(|problem| match problem {
        Problem::Refused { said, .. } => {
            said[said.find("(refusal").expect("a number")..].to_string()
        }
        other => panic!("{other}"),
    });
    assert_eq!(answered, expected, "{question:?}\n{}", String::from_utf8_lossy(&read.file));
}

/// Every cue of a show, the numbers around them, and all pairs; every path to a cue, and some that lead to none.
fn questions(show: &Show) -> Vec<Question> {
    let mut all = Vec::new();
    for cue in 0..=show.count() + 1 {
        all.extend([Question::Locate(cue), Question::Out(cue), Question::In(cue)]);
        all.extend((0..=show.count() + 1).map(|other| Question::Fewest(cue, other)));
        all.extend((0..=show.count() + 1).map(|other| Question::Row(cue, other)));
    }
    for cue in &show.unfolding().cues {
        for own in [0, cue.own, cue.own + 1] {
            all.push(Question::Number { path: cue.path.clone(), own });
            all.push(Question::Number { path: [&cue.path[..], &[own]].concat(), own });
        }
    }
    all
}

#[test]
fn answers_are_those_of_the_naive_tool() {
    for case in 0..60 {
        let prng = &mut Prng::new(23, case);
        let shape = prng.pick(&random::SHAPES);
        let read = Read::alone(&random::show(prng, shape));
        for question in questions(&read.show) {
            hold(&read, &question);
        }
    }
}

/// Every pair of a show, and numbers that are no cues, under this wait file.
fn quickest(show: &Show, waits: &str) -> Vec<Question> {
    let numbers = 0..=show.count() + 1;
    let pairs = numbers.clone().flat_map(|s| numbers.clone().map(move |t| (s, t)));
    pairs.map(|(s, t)| Question::Quickest { waits: waits.into(), s, t }).collect()
}

#[test]
fn quickest_ways_are_those_of_the_naive_tool() {
    for case in 0..60 {
        let prng = &mut Prng::new(28, case);
        let shape = prng.pick(&random::SHAPES);
        let read = match case % 4 {
            0 => Read::desk(&random::desk_show(prng, shape)),
            _ => Read::alone(&random::show(prng, shape)),
        };
        let broken = prng.one_in(3);
        let file = if broken { waits::damaged(prng) } else { waits::lawful(prng) };
        let waits = written("naive_waits.csv", &file);
        for question in quickest(&read.show, &waits) {
            hold(&read, &question);
        }
    }
}

#[test]
fn answers_on_the_desk_are_those_of_the_naive_tool() {
    let random = (0..12).map(|case| {
        let prng = &mut Prng::new(26, case);
        let shape = prng.pick(&random::SHAPES);
        random::desk_show(prng, shape)
    });
    for own in random.chain([desk::desk_run(), desk::run(0), desk::run(15)]) {
        let read = Read::desk(&own);
        for question in questions(&read.show) {
            hold(&read, &question);
        }
    }
}

#[test]
fn a_file_is_written_and_its_links_are_listed_as_by_the_naive_tool() {
    for case in 0..100 {
        let prng = &mut Prng::new(27, case);
        let shape = prng.pick(&random::SHAPES);
        let shows =
            [Read::alone(&random::show(prng, shape)), Read::desk(&random::desk_show(prng, shape))];
        for read in shows {
            let padded = padding::some_way(prng, &read.file);
            for file in [&read.file, &padded] {
                let written = asked(read.way, file, &Question::Write).expect("an accepted show");
                assert_eq!(written.as_bytes(), print(&read.show.rows));
                let links = asked(read.way, file, &Question::Links).expect("an accepted show");
                assert_eq!(links, printed(written.as_bytes()));
                // The whole file is read as it is, to the same sizes.
                let sizes = |way, file: &[u8]| asked(way, file, &Question::Check).ok();
                assert_eq!(sizes(Way::Alone, written.as_bytes()), sizes(read.way, file));
            }
        }
    }
}

#[test]
fn sizes_are_those_of_the_naive_tool() {
    for case in 0..300 {
        let rows = random_show(24, case);
        let (file, show) = (file_of(&rows), Show::of_rows(&rows).expect("an accepted show"));
        let (blocks, rows, cues) = (show.blocks.len(), show.rows.len(), show.count());
        let sizes = asked(Way::Alone, &file, &Question::Check).expect("an accepted show");
        assert_eq!(sizes, format!("blocks,rows,cues\n{blocks},{rows},{cues}\n"));
        let count = asked(Way::Alone, &file, &Question::Count).expect("an accepted show");
        assert_eq!(count, format!("cues\n{cues}\n"));
    }
}

/// What `locate` prints for a cue is what `number` takes.
#[test]
fn a_path_that_is_printed_can_be_asked() {
    for case in 0..12 {
        let rows = random_show(25, case);
        let file = file_of(&rows);
        let cues = Show::of_rows(&rows).expect("an accepted show").count();
        for cue in (1..=cues).step_by(1 + cues as usize / 6) {
            let cue = cue.to_string();
            let (_, located, _) = said(&["locate", "-", &cue], &file);
            let line = located.lines().nth(1).expect("a line of values");
            let [_, _, own, path] = line.split(',').collect::<Vec<_>>()[..] else {
                panic!("{line}");
            };
            let (_, number, _) = said(&["number", "-", path, own], &file);
            assert_eq!(number, format!("cue\n{cue}\n"));
        }
    }
}
