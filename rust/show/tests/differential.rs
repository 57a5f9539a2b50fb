//! The crate's answers are those of the second tool: its named cases, and random ones.

use second::compare::checker::Checker;
use second::compare::{fixed, random, report};
use second::gen::known;
use second::library;
use second::subject::Subject;
use show::{Loaded, Page, Place, Refused, Rows};

/// An answer as its C function gives it. Refusals of rows are placed at rows, those of a file at lines; those
/// of a wait file, from 15 on, at its lines.
fn told<const N: usize>(
    answer: Result<[u32; N], Refused>,
    given: &mut [u32],
    at: fn(u32) -> Place,
) -> u64 {
    let refused = match answer {
        Ok(values) => {
            given[..N].copy_from_slice(&values);
            return 0;
        }
        Err(refused) => refused,
    };
    let place = match refused.place() {
        None => 0,
        Some(place @ (Place::Row(n) | Place::Line(n))) => {
            let at = if refused.number() < 15 { at } else { Place::Line };
            assert_eq!(place, at(n));
            n
        }
    };
    u64::from(refused.number()) << 32 | u64::from(place)
}

/// The crate always lends enough for `given`; where a case lends less, the C function is asked.
fn short(given: &[u32]) -> bool {
    given.len() < show_sys::GIVEN_LEN
}

fn sizes(read: Loaded) -> [u32; 3] {
    let numbers = read.rows.numbers().len();
    assert_eq!(numbers % show::ROW_LEN, 0);
    [(numbers / show::ROW_LEN) as u32, read.blocks, read.cues]
}

fn read(file: &[u8], rows: &mut [u32], given: &mut [u32]) -> u64 {
    if short(given) {
        return library::read(file, rows, given);
    }
    told(Rows::read(file, rows).map(sizes), given, Place::Line)
}

fn read_desk(file: &[u8], rows: &mut [u32], given: &mut [u32]) -> u64 {
    if short(given) {
        return library::read_desk(file, rows, given);
    }
    told(Rows::read_desk(file, rows).map(sizes), given, Place::Line)
}

fn write(rows: &[u32], out: &mut [u8], given: &mut [u32]) -> u64 {
    if short(given) {
        return library::write(rows, out, given);
    }
    told(Rows::new(rows).write(out).map(|file| [file.len() as u32]), given, Place::Row)
}

fn count(rows: &[u32], given: &mut [u32]) -> u64 {
    if short(given) {
        return library::count(rows, given);
    }
    told(Rows::new(rows).count().map(|cues| [cues]), given, Place::Row)
}

fn locate(rows: &[u32], n: u32, path: &mut [u32], given: &mut [u32]) -> u64 {
    if short(given) {
        return library::locate(rows, n, path, given);
    }
    let answer = Rows::new(rows).locate(n, path);
    told(answer.map(|cue| [cue.path.len() as u32, cue.block, cue.own]), given, Place::Row)
}

fn number(rows: &[u32], path: &[u32], own: u32, given: &mut [u32]) -> u64 {
    if short(given) {
        return library::number(rows, path, own, given);
    }
    told(Rows::new(rows).number(path, own).map(|n| [n]), given, Place::Row)
}

fn of_page(page: Page) -> [u32; 2] {
    [page.cues.len() as u32, u32::from(page.more)]
}

fn list_out(rows: &[u32], v: u32, n: u32, page: &mut [u32], given: &mut [u32]) -> u64 {
    if short(given) {
        return library::list_out(rows, v, n, page, given);
    }
    told(Rows::new(rows).list_out(v, n, page).map(of_page), given, Place::Row)
}

fn list_in(rows: &[u32], v: u32, n: u32, page: &mut [u32], given: &mut [u32]) -> u64 {
    if short(given) {
        return library::list_in(rows, v, n, page, given);
    }
    told(Rows::new(rows).list_in(v, n, page).map(of_page), given, Place::Row)
}

fn fewest(rows: &[u32], s: u32, t: u32, work: &mut [u32], given: &mut [u32]) -> u64 {
    if short(given) {
        return library::fewest(rows, s, t, work, given);
    }
    let answer = Rows::new(rows).fewest(s, t, work);
    told(answer.map(|steps| steps.map_or([0, 0], |steps| [1, steps])), given, Place::Row)
}

fn row(rows: &[u32], s: u32, t: u32, path: &mut [u32], given: &mut [u32]) -> u64 {
    if short(given) {
        return library::row(rows, s, t, path, given);
    }
    let answer = Rows::new(rows).row(s, t, path);
    told(answer.map(|origin| [origin.row, origin.path.len() as u32]), given, Place::Row)
}

fn quickest(
    rows: &[u32],
    s: u32,
    t: u32,
    waits: &[u8],
    work: &mut [u64],
    given: &mut [u32],
) -> u64 {
    if short(given) {
        return library::quickest(rows, s, t, waits, work, given);
    }
    let answer = Rows::new(rows).quickest(s, t, waits, work);
    let halves = |tenths: u64| [1, tenths as u32, (tenths >> 32) as u32];
    told(answer.map(|tenths| tenths.map_or([0; 3], halves)), given, Place::Row)
}

const CRATE: Subject = Subject {
    read,
    read_desk,
    write,
    count,
    locate,
    number,
    list_out,
    list_in,
    fewest,
    row,
    quickest,
};

fn compare(name: &str, case: impl FnOnce(&mut Checker)) {
    let mut checker = Checker::new(&CRATE);
    case(&mut checker);
    if let Some(failure) = &checker.failure {
        panic!("{name}: {}", report::text(failure));
    }
    assert!(checker.census.iter().sum::<u64>() > 0, "{name} asked nothing");
}

#[test]
fn named_cases_are_answered_as_by_the_second_tool() {
    for (name, case) in fixed() {
        compare(name, case);
    }
}

#[test]
fn random_cases_are_answered_as_by_the_second_tool() {
    for case in 0..500 {
        compare(&case.to_string(), |checker| random::run(checker, 5, case));
    }
}

#[test]
fn linked_cues_come_page_after_page() {
    let rows = known::star(10, true);
    let star = Rows::new(&rows);
    let linked: Vec<u32> = star.linked_out(1).expect("cue 1 is there").collect();
    let mut page = vec![0; star.count().expect("a show") as usize];
    let whole = star.list_out(1, 0, &mut page).expect("cue 1 is there");
    assert!(linked.len() > 1000 && !whole.more);
    assert_eq!(linked, whole.cues);
    let back: Vec<u32> = star.linked_in(linked[999]).expect("a linked cue").collect();
    assert_eq!(back, [1]);
    assert_eq!(star.linked_out(0).err(), Some(Refused::NoSuchCue));
}

#[test]
fn a_list_that_has_ended_stays_so() {
    let ring = known::ring();
    let mut linked = Rows::new(&ring).linked_in(2).expect("cue 2 is there");
    assert_eq!([linked.next(), linked.next(), linked.next()], [Some(4), None, None]);
    let none = Rows::new(&ring[..11]).linked_out(1);
    assert_eq!(none.err(), Some(Refused::BadBlock(Place::Row(1))));
}
