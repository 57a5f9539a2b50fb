//! What is timed: for each question, the inputs of the table of figures.

use crate::gen::prng::Prng;
use crate::gen::{desk, known, notes, padding, random, waits};
use crate::limits::{
    COLUMNS, DESK_ROWS, FOLLOWED, JOINS, OWN_ROWS, PATH, TOTAL, WAIT, WAIT_NAMES, WORK,
};
use crate::naive::file::print;
use crate::question::{Input, Question};

/// One line of the benchmark. Its questions are asked in turn.
pub struct Entry {
    pub question: &'static str,
    pub input: String,
    pub lent: Input,
    pub asked: Vec<Question>,
}

/// A show with a name.
type Named = (String, Vec<u32>);

/// How many cues or pairs are asked in turn about a random show.
const TURNS: usize = 16;

fn entry(question: &'static str, show: &Named, asked: Vec<Question>) -> Entry {
    let (input, rows) = show.clone();
    Entry { question, input, lent: Input::Rows(rows), asked }
}

fn sized(rows: usize) -> Named {
    let prng = &mut Prng::new(7, rows as u64);
    (format!("{rows} rows"), random::sized(prng, rows, 12, TOTAL))
}

fn named(name: &str, rows: Vec<u32>) -> Named {
    (name.to_string(), rows)
}

fn count_of(rows: &[u32]) -> u32 {
    let show = crate::naive::ask::Show::of_rows(rows);
    show.unwrap_or_else(|refusal| panic!("a benchmark show is refused: {refusal:?}")).count()
}

/// Random cues, all from 1 to the count.
fn some_cues(rows: &[u32]) -> Vec<u32> {
    let (count, mut prng) = (count_of(rows), Prng::new(11, 0));
    (0..TURNS).map(|_| prng.within(1, count)).collect()
}

/// The file of these rows with this many digits to a value at least, and its name with its bytes.
fn padded_file(name: &str, rows: &[u32], digits: usize) -> (String, Vec<u8>) {
    let file = padding::to_digits(&print(rows.as_chunks().0), digits);
    (format!("{name}, {} bytes", file.len()), file)
}

/// Reading a file with this many digits to a value at least. Its bytes stand in the name.
fn read(name: &str, rows: &[u32], digits: usize) -> Entry {
    let (input, file) = padded_file(name, rows, digits);
    let asked = vec![Question::Read { room: rows.len() }];
    Entry { question: "read", input, lent: Input::File(file), asked }
}

/// The same behind the desk's blocks.
fn read_desk(name: &str, own: &[u32], digits: usize) -> Entry {
    let (input, file) = padded_file(name, own, digits);
    let asked = vec![Question::Read { room: DESK_ROWS * COLUMNS + own.len() }];
    Entry { question: "read desk", input, lent: Input::Desk(file), asked }
}

/// Files for the desk: two rows, a small show, and many rows, also with five digits to a value.
fn read_desks() -> [Entry; 5] {
    let many = |rows: usize| random::desk_sized(&mut Prng::new(7, rows as u64), rows, 12, TOTAL);
    [
        read_desk("a run", &desk::run(15), 1),
        read_desk("desk_run", &desk::desk_run(), 1),
        read_desk("100 rows", &many(100), 1),
        read_desk("856 rows", &many(OWN_ROWS), 1),
        read_desk("padded 856", &many(OWN_ROWS), 5),
    ]
}

/// All lines, in the order of the table.
pub fn entries() -> Vec<Entry> {
    let lengths = [100, 500, 1024].map(sized);
    let usual = [
        named("ring", known::ring()),
        named("tower", known::tower(31)),
        named("knot", known::knot()),
        lengths[2].clone(),
    ];
    let mut entries = Vec::new();
    entries.extend(lengths.iter().map(|show| read(&show.0, &show.1, 1)));
    entries.push(read("padded 992", &sized(992).1, 5));
    entries.push(read("padded 1024", &lengths[2].1, 4));
    entries.extend(read_desks());
    for show in &lengths {
        entries.push(entry("write", show, vec![Question::Write { room: 65_536 }]));
    }
    entries.extend(usual.iter().map(|show| entry("count", show, vec![Question::Count])));
    entries.extend(usual.iter().map(|show| entry("locate", show, locates(&show.1))));
    entries.extend(usual.iter().map(|show| entry("number", show, numbers(&show.1))));
    entries.extend(lists(&usual));
    entries.extend(fewest(&usual, &lengths));
    entries.extend(quickest(&usual, &lengths));
    entries.extend(behind(&usual, &lengths));
    entries
}

/// The last cue of a named show, or random cues of a random one.
fn located(rows: &[u32]) -> Vec<u32> {
    if rows.len() / 11 == 1024 {
        some_cues(rows)
    } else {
        vec![count_of(rows)]
    }
}

fn locates(rows: &[u32]) -> Vec<Question> {
    located(rows).into_iter().map(|n| Question::Locate { n, room: PATH }).collect()
}

/// The paths of the located cues.
fn numbers(rows: &[u32]) -> Vec<Question> {
    let path_of = |n: u32| {
        let (mut path, mut given) = ([0; PATH], [0; 3]);
        assert_eq!(crate::plain::locate(rows, n, &mut path, &mut given), 0);
        Question::Number { path: path[..given[0] as usize].to_vec(), own: given[2] }
    };
    located(rows).into_iter().map(path_of).collect()
}

fn list(v: u32, n: u32, room: usize) -> Question {
    Question::List { outward: true, v, n, room }
}

fn lists(usual: &[Named; 4]) -> Vec<Entry> {
    let [_, _, knot, random] = usual;
    let mut entries = Vec::new();
    for room in [16, 256, 4096] {
        let show = named(&format!("a million linked cues, page of {room}"), known::star(20, true));
        entries.push(entry("list out", &show, vec![list(1, 500_000, room)]));
    }
    entries.push(entry("list out", knot, vec![list(1, 0, 16)]));
    let cues = some_cues(&random.1);
    let show = named("1024 rows, page of 256", random.1.clone());
    entries.push(entry("list out", &show, cues.iter().map(|v| list(*v, 0, 256)).collect()));
    let show = named("a million linked cues, page of 4096", known::star(20, false));
    let inward = Question::List { outward: false, v: 1, n: 500_000, room: 4096 };
    entries.push(entry("list in", &show, vec![inward]));
    entries
}

fn pair(s: u32, t: u32) -> Question {
    Question::Fewest { s, t, room: WORK }
}

fn some_pairs(rows: &[u32], ask: impl Fn(u32, u32) -> Question) -> Vec<Question> {
    let cues = some_cues(rows);
    let ends = cues.iter().cycle().skip(3);
    cues.iter().zip(ends).map(|(s, t)| ask(*s, *t)).collect()
}

/// The same show with notes among its links.
fn noted((name, rows): &Named) -> Named {
    let mut rows = rows.clone();
    notes::some(&mut Prng::new(7, 0), &mut rows);
    (format!("{name}, one link in four a note"), rows)
}

/// Shows of 1,024 rows with many joins.
fn hard() -> [Named; 2] {
    [named("dense", known::dense()), named("five blocks in 1024 rows", known::five_blocks())]
}

fn fewest(usual: &[Named; 4], lengths: &[Named; 3]) -> Vec<Entry> {
    let [ring, tower, knot, _] = usual;
    let long_ring = named("long ring, 1 to 2", known::long_ring(30));
    let long_pairs = named("long ring, random pairs", long_ring.1.clone());
    let hard = hard();
    let bad_order = named("a bad order", known::bad_order());
    let mut entries = vec![
        entry("fewest", ring, vec![pair(1, 2)]),
        entry("fewest", knot, vec![pair(1, 2)]),
        entry("fewest", tower, vec![pair(1, 2_147_483_647)]),
        entry("fewest", &long_ring, vec![pair(1, 2)]),
    ];
    let shows = [&long_pairs].into_iter().chain(lengths).chain(&hard);
    entries.extend(shows.map(|show| entry("fewest", show, some_pairs(&show.1, pair))));
    entries.push(entry("fewest", &bad_order, vec![pair(255, 1)]));
    let noted = noted(&lengths[2]);
    entries.push(entry("fewest", &noted, some_pairs(&noted.1, pair)));
    entries
}

/// A wait file with a line for each label, and its waits apart from each other.
fn all_waits() -> Vec<u8> {
    let wait = |label: u32| (label, label * 1_009 % (WAIT + 1));
    waits::of(&(1..=FOLLOWED).map(wait).collect::<Vec<_>>())
}

/// The shows of the lines `fewest`, under a wait file of all labels and under one of none.
fn quickest(usual: &[Named; 4], lengths: &[Named; 3]) -> Vec<Entry> {
    let mut entries = Vec::new();
    for (lines, waits) in [("254 waits", all_waits()), ("no waits", WAIT_NAMES.to_vec())] {
        for fewest in fewest(usual, lengths) {
            let under = |question: &Question| match *question {
                Question::Fewest { s, t, room } => {
                    Question::Quickest { s, t, waits: waits.clone(), room }
                }
                ref other => other.clone(),
            };
            let asked = fewest.asked.iter().map(under).collect();
            let input = format!("{}, {lines}", fewest.input);
            entries.push(Entry { question: "quickest", input, lent: fewest.lent, asked });
        }
    }
    entries
}

fn row(s: u32, t: u32) -> Question {
    Question::Row { s, t, room: PATH }
}

/// Random cues, each with one that follows on from it.
fn linked_pairs(rows: &[u32]) -> Vec<Question> {
    let (count, mut prng) = (count_of(rows), Prng::new(11, 1));
    let mut pairs = Vec::new();
    while pairs.len() < TURNS {
        let (s, mut page, mut given) = (prng.within(1, count), [0; JOINS], [0; 3]);
        assert_eq!(crate::plain::list_out(rows, s, 0, &mut page, &mut given), 0);
        pairs.extend(page[..given[0] as usize].last().map(|t| row(s, *t)));
    }
    pairs
}

/// The tower's last copy does not see its first cue: no levels are made, and there is no row.
fn behind(usual: &[Named; 4], lengths: &[Named; 3]) -> Vec<Entry> {
    let [ring, tower, knot, _] = usual;
    let long_ring = named("long ring, 1 to the last", known::long_ring(30));
    let hard = hard();
    let mut entries = vec![
        entry("row", ring, vec![row(4, 2)]),
        entry("row", knot, vec![row(1, 2)]),
        entry("row", tower, vec![row(1, 2_147_483_647)]),
        entry("row", &long_ring, vec![row(1, 1_073_741_825)]),
    ];
    let shows = lengths.iter().chain(&hard);
    entries.extend(shows.map(|show| entry("row", show, linked_pairs(&show.1))));
    entries
}
