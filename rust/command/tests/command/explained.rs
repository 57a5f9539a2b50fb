//! What is explained is what the library refuses: number and line, found apart from it.

use std::collections::BTreeMap;

use second::gen::prng::Prng;
use second::gen::random;
use show::{Place, Refused, Rows, PATH_LEN, ROWS_LEN};
use show_command::blocks::rows_of;
use show_command::explain::{self, Cause, Explained};
use show_command::way::Way;

use crate::common::{file_of, refusal};
use crate::files;

/// Number and line, as the library has them.
fn placed(refused: Refused) -> (u32, Option<u32>) {
    let line = refused.place().map(|place| match place {
        Place::Line(line) => line,
        Place::Row(row) => panic!("a file has no row {row}"),
    });
    (refused.number(), line)
}

/// What is wrong with a file that is read so, after a look at what the library says of it.
pub fn of(way: Way, file: &[u8]) -> Option<Explained> {
    let found = explain::found(file, None, way);
    let refused = refusal(way, file);
    let (by_us, by_library) =
        (found.as_ref().map(|found| (found.number, found.line)), refused.map(placed));
    assert_eq!(by_us, by_library, "{found:?}\n{}", file.escape_ascii());
    if let (Some(found), Some(refused)) = (&found, refused) {
        let explained = explain::file(file, None, way, refused);
        assert_eq!(&explained, found);
        assert_eq!(found.cause.number(), found.number);
    }
    found
}

/// Causes that have to do with a show file, but for the one that needs its size.
fn of_files() -> impl Iterator<Item = &'static &'static str> {
    const OTHERS: [&str; 2] = ["Unexplained", "TooLong"];
    const QUESTIONS: [&str; 9] =
        ["NoCue", "LongPath", "NoUses", "NoUse", "NoOwn", "NotOwn", "Loop", "LinkBack", "NoLink"];
    const WAITS: [&str; 4] = ["WaitLabel", "WaitOver", "SameLabel", "LabelFalls"];
    let others = [&OTHERS[..], &QUESTIONS, &WAITS].concat();
    Cause::NAMES.iter().filter(move |name| !others.contains(name))
}

#[test]
fn number_and_line_are_those_of_the_library() {
    let (mut seen, mut files, mut accepted): (BTreeMap<&str, u32>, u32, u32) = Default::default();
    files::each(|way, file| {
        files += 1;
        match of(way, file) {
            Some(found) => *seen.entry(found.cause.name()).or_default() += 1,
            None => accepted += 1,
        }
    });
    assert!(files > 200_000 && accepted > 2000, "{files} files, {accepted} accepted");
    let unseen: Vec<&&str> = of_files().filter(|name| !seen.contains_key(*name)).collect();
    assert!(unseen.is_empty(), "no file had {unseen:?}; seen: {seen:?}");
}

/// The explanation of a path and an own cue, if the library refuses them.
fn of_path(file: &[u8], path: &[u32], own: u32) -> Option<Explained> {
    let mut room = [0; ROWS_LEN];
    let read = Rows::read(file, &mut room).expect("an accepted show");
    let refused = read.rows.number(path, own).err()?;
    let explained = explain::path(refused, rows_of(&read), path, own);
    assert_eq!((explained.number, explained.line), (13, None));
    Some(explained)
}

/// Changed as its sentence allows, a path or an own cue is no longer refused for that.
fn hold_path(file: &[u8], path: &[u32], own: u32) -> Option<&'static str> {
    let explained = of_path(file, path, own)?;
    let with_step = |place: usize, step: usize| {
        let mut path = path.to_vec();
        path[place - 1] = step as u32;
        of_path(file, &path, own)
    };
    let at = |explained: Option<Explained>| match explained?.cause {
        Cause::NoUse { place, .. } | Cause::NoUses { place, .. } => Some(place),
        _ => None,
    };
    match explained.cause {
        Cause::NoUse { place, uses, .. } => {
            assert!([1, uses].iter().all(|step| at(with_step(place, *step)) != Some(place)));
            assert!([0, uses + 1].iter().all(|step| at(with_step(place, *step)) == Some(place)));
        }
        Cause::NoUses { place, .. } => {
            assert!((0..9).all(|step| at(with_step(place, step)) == Some(place)));
        }
        Cause::NotOwn { most, .. } => {
            assert!([1, most].iter().all(|own| of_path(file, path, *own).is_none()));
            assert!([0, most + 1].iter().all(|own| of_path(file, path, *own).is_some()));
        }
        Cause::NoOwn { .. } => assert!((0..9).all(|own| of_path(file, path, own).is_some())),
        Cause::LongPath { steps } => assert!(steps == path.len() && steps > 127),
        ref other => panic!("{other:?}"),
    }
    Some(explained.cause.name())
}

/// Small random shows, each with the generator that made it.
fn shows(seed: u64) -> impl Iterator<Item = (Prng, Vec<u32>)> {
    (0..300).map(move |case| {
        let mut prng = Prng::new(seed, case);
        let shape = prng.pick(&random::SHAPES);
        let rows = random::show(&mut prng, shape);
        (prng, rows)
    })
}

#[test]
fn paths_are_refused_where_it_is_said() {
    let mut seen: BTreeMap<&str, u32> = BTreeMap::new();
    for (mut prng, rows) in shows(13) {
        let file = file_of(&rows);
        for _ in 0..60 {
            let length = if prng.one_in(30) { 126 + prng.below(4) } else { prng.below(5) };
            let path: Vec<u32> = (0..length).map(|_| prng.within(0, 4)).collect();
            if let Some(name) = hold_path(&file, &path, prng.within(0, 4)) {
                *seen.entry(name).or_default() += 1;
            }
        }
    }
    assert_eq!(seen.len(), 5, "{seen:?}");
}

#[test]
fn cues_are_refused_where_it_is_said() {
    for (_, rows) in shows(14) {
        let file = file_of(&rows);
        let mut room = [0; ROWS_LEN];
        let read = Rows::read(&file, &mut room).expect("an accepted show");
        for cue in [0, read.cues + 1, u32::MAX] {
            let refused = read.rows.linked_in(cue).expect_err("no such cue");
            let Explained { number, cause, .. } = explain::cues(refused, &[1, cue], read.cues);
            assert_eq!((number, cause), (12, Cause::NoCue { cue, count: read.cues }));
        }
        for cue in [1, read.cues] {
            assert!(read.rows.linked_out(cue).is_ok());
        }
    }
}

/// What is said of a link that is refused; whether one leads back is asked of the library.
fn of_link(rows: Rows, count: u32, s: u32, t: u32) -> Option<Cause> {
    let mut path = [0; PATH_LEN];
    let refused = rows.row(s, t, &mut path).err()?;
    let back = rows.row(t, s, &mut path).is_ok();
    let Explained { number, line, cause, .. } = explain::link(refused, s, t, count, back);
    assert_eq!((number, line, cause.number()), (refused.number(), None, refused.number()));
    Some(cause)
}

#[test]
fn links_are_refused_where_it_is_said() {
    let mut seen: BTreeMap<&str, u32> = BTreeMap::new();
    for (_, numbers) in shows(15) {
        let rows = Rows::new(&numbers);
        let count = rows.count().expect("an accepted show");
        for (s, t) in (0..=count + 1).flat_map(|s| (0..=count + 1).map(move |t| (s, t))) {
            let linked =
                |s: u32, t: u32| rows.linked_out(s).is_ok_and(|mut to| to.any(|to| to == t));
            let cause = of_link(rows, count, s, t);
            match cause {
                None => assert!(linked(s, t)),
                Some(Cause::NoCue { cue, .. }) => assert!(cue == 0 || cue > count),
                Some(Cause::Loop { cue }) => assert_eq!((s, t), (cue, cue)),
                Some(Cause::LinkBack { .. }) => assert!(!linked(s, t) && linked(t, s)),
                Some(Cause::NoLink { .. }) => assert!(!linked(s, t) && !linked(t, s)),
                Some(ref other) => panic!("{other:?}"),
            }
            *seen.entry(cause.as_ref().map_or("", Cause::name)).or_default() += 1;
        }
    }
    assert_eq!(seen.len(), 5, "{seen:?}");
}
