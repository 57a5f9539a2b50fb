//! Files that may be broken, from all generators, each with a way to read it.

use second::gen::prng::Prng;
use second::gen::{damage, desk, edges, known, padding, random};
use second::limits::{BYTES, COLUMNS, OWN_ROWS};
use show_command::way::Way;

use crate::common::{file_of, NAMES};

/// Damaged files of random shows, for each way.
const DAMAGED: u64 = 24_000;
/// Changed rows of each known show.
const CHANGED: u64 = 60;

/// Looks at every file.
pub fn each(mut look: impl FnMut(Way, &[u8])) {
    for way in [Way::Alone, Way::Desk] {
        each_of(way, |file| look(way, file));
    }
    // Files for the other way.
    for (alone, desk) in edges::bases().iter().zip(desk::bases()) {
        edges::near_rows(&desk).iter().for_each(|rows| look(Way::Alone, &file_of(rows)));
        look(Way::Desk, &file_of(alone));
    }
}

/// Looks at every file for one way.
fn each_of(way: Way, mut look: impl FnMut(&[u8])) {
    (0..DAMAGED).for_each(|case| look(&damaged(&mut Prng::new(11, case), way)));
    (0..DAMAGED / 4).for_each(|case| look(&spoiled(&mut Prng::new(12, case), way)));
    for (rows, seed) in known_shows(way).into_iter().zip(100..) {
        look(&file_of(&rows));
        (0..CHANGED).for_each(|case| look(&changed(&mut Prng::new(seed, case), &rows)));
    }
    for rows in bases(way) {
        let file = file_of(&rows);
        let padded = padding::to_digits(&file, padding::DIGITS);
        edges::near_rows(&rows).iter().for_each(|rows| look(&file_of(rows)));
        edges::near_files(&file).iter().for_each(|file| look(file));
        edges::near_values(&file).iter().for_each(|file| look(file));
        edges::near_values(&padded).iter().for_each(|file| look(file));
    }
    lengths(way).iter().for_each(|file| look(file));
}

fn bases(way: Way) -> Vec<Vec<u32>> {
    match way {
        Way::Alone => edges::bases(),
        Way::Desk => desk::bases(),
    }
}

/// A random show, in a file that is padded now and then.
fn random_file(prng: &mut Prng, way: Way, rows_too: bool) -> Vec<u8> {
    let shape = if prng.one_in(8) { &random::LARGER } else { prng.pick(&random::SHAPES) };
    let mut rows = match way {
        Way::Alone => random::show(prng, shape),
        Way::Desk => random::desk_show(prng, shape),
    };
    if rows_too {
        damage::rows(prng, &mut rows);
    }
    let file = file_of(&rows);
    if prng.one_in(4) {
        padding::some_way(prng, &file)
    } else {
        file
    }
}

/// Damage in the text, in the rows, or in both.
fn damaged(prng: &mut Prng, way: Way) -> Vec<u8> {
    let (rows, text) = *prng.pick(&[(true, false), (false, true), (true, true)]);
    let mut file = random_file(prng, way, rows);
    if text {
        damage::file(prng, &mut file);
    }
    file
}

/// What other programs do to a file of values.
fn spoiled(prng: &mut Prng, way: Way) -> Vec<u8> {
    let rows = prng.one_in(2);
    let mut file = random_file(prng, way, rows);
    let wide = |file: &[u8]| file.iter().flat_map(|byte| [*byte, 0]).collect::<Vec<u8>>();
    match prng.below(9) {
        0 => swap(&mut file, b"\n", b"\r\n"),
        1 => swap(&mut file, b",", b";"),
        2 => swap(&mut file, b",", b"\t"),
        3 => swap(&mut file, b",", b", "),
        4 => swap(&mut file, b",", b"\",\""),
        5 => file = [&[0xEF, 0xBB, 0xBF], &file[..]].concat(),
        6 => file = [&[0xFF, 0xFE], &wide(&file)[..]].concat(),
        7 => file.make_ascii_uppercase(),
        _ => drop(file.drain(..NAMES.len().min(file.len()))),
    }
    let names = NAMES.as_bytes().iter();
    // Most of these are wrong in line 1 already, so half of them get their names back.
    let end = file.iter().position(|byte| *byte == b'\n').map_or(file.len(), |place| place + 1);
    if prng.one_in(2) {
        file.splice(..end, names.copied());
    }
    let strays = b"\t;\"'.x+-\r/";
    if prng.one_in(2) {
        let place = prng.below(file.len() + 1);
        file.insert(place, *prng.pick(strays));
    }
    file
}

/// One text in the place of every other.
fn swap(file: &mut Vec<u8>, from: &[u8], to: &[u8]) {
    let parts: Vec<&[u8]> = file.split(|byte| [*byte] == *from).collect();
    *file = parts.join(to);
}

/// The known shows, with the numbers that their blocks have behind those of the desk, and shows on
/// these.
fn known_shows(way: Way) -> Vec<Vec<u32>> {
    let mut shows = all_known();
    if way == Way::Desk {
        shows = shows.iter().map(|rows| desk::moved(rows)).collect();
        shows.extend([desk::all_runs(), desk::longest(), desk::desk_run()]);
    }
    shows
}

fn all_known() -> Vec<Vec<u32>> {
    vec![
        known::ring(),
        known::long_ring(9),
        known::tower(31),
        known::tower(32),
        known::tower_with_one_more(),
        known::unused_tower(),
        known::knot(),
        known::wide(1024),
        known::deep(true),
        known::deep_join(),
        known::full(),
        known::all_joins(),
        known::trap_show(),
        known::trap_twice(),
        known::dense(),
        known::five_blocks(),
        known::labelled(1001),
        known::millions(),
        edges::many_blocks(112),
        edges::many_blocks(113),
        edges::many_blocks(127),
        edges::many_blocks(128),
        edges::many_blocks(129),
        edges::many_blocks(140),
    ]
}

/// A known show with damaged rows.
fn changed(prng: &mut Prng, rows: &[u32]) -> Vec<u8> {
    let mut rows = rows.to_vec();
    damage::rows(prng, &mut rows);
    file_of(&rows)
}

/// Files around the longest length and around the most rows.
fn lengths(way: Way) -> Vec<Vec<u8>> {
    let wide = match way {
        Way::Alone => known::wide(1024),
        Way::Desk => desk::wide(OWN_ROWS),
    };
    let file = file_of(&wide);
    let mut files: Vec<Vec<u8>> = [0, 1, BYTES - 1, BYTES, BYTES + 1, 100_000]
        .into_iter()
        .flat_map(|length| [vec![b'0'; length], vec![b'\n'; length]])
        .collect();
    files.extend([BYTES - 1, BYTES, BYTES + 1].map(|length| padding::to_length(&file, length)));
    files.extend([1, 2, 700].map(|more| {
        let last = &wide[wide.len() - COLUMNS..];
        file_of(&[&wide[..], &last.repeat(more)].concat())
    }));
    files
}
