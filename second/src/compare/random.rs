//! Random cases, each made from the seed and its number alone.

use super::checker::{Checker, Subjected};
use crate::gen::prng::Prng;
use crate::gen::{damage, notes, padding, random};
use crate::limits::{OWN_ROWS, TOTAL};
use crate::naive::file::print;
use crate::question::Input;

/// Runs one case.
pub fn run(checker: &mut Checker, seed: u64, case: u64) {
    let prng = &mut Prng::new(seed, case);
    match prng.below(52) {
        0..=15 => whole_show(checker, prng),
        16..=26 => damaged_file(checker, prng),
        27..=37 => damaged_rows(checker, prng),
        38 => larger_show(checker, prng),
        39 => long_show(checker, prng),
        40..=43 => tangled_show(checker, prng),
        44..=46 => desk_show(checker, prng),
        47..=50 => damaged_desk_file(checker, prng),
        _ => long_desk_show(checker, prng),
    }
}

fn small(prng: &mut Prng) -> Vec<u32> {
    let shape = prng.pick(&random::SHAPES);
    random::show(prng, shape)
}

/// The file of these rows; one in four is padded.
fn file_of(prng: &mut Prng, rows: &[u32]) -> Vec<u8> {
    let file = print(rows.as_chunks().0);
    if prng.one_in(4) {
        return padding::some_way(prng, &file);
    }
    file
}

fn ask_rows(checker: &mut Checker, prng: &mut Prng, rows: Vec<u32>) {
    Subjected::new(checker, Input::Rows(rows)).ask_rows(prng);
}

fn ask_file(checker: &mut Checker, prng: &mut Prng, file: Vec<u8>) {
    Subjected::new(checker, Input::File(file)).ask_file(prng);
}

fn ask_file_of(checker: &mut Checker, prng: &mut Prng, rows: &[u32]) {
    let file = file_of(prng, rows);
    ask_file(checker, prng, file);
}

fn whole_show(checker: &mut Checker, prng: &mut Prng) {
    let rows = small(prng);
    ask_file_of(checker, prng, &rows);
    ask_rows(checker, prng, rows);
}

fn larger_show(checker: &mut Checker, prng: &mut Prng) {
    let rows = random::show(prng, &random::LARGER);
    ask_file_of(checker, prng, &rows);
    ask_rows(checker, prng, rows);
}

/// A show of many rows with notes among them, whole or damaged. Most are too large to unfold.
fn long_show(checker: &mut Checker, prng: &mut Prng) {
    let length = *prng.pick(&[100, 500, 1023, 1024, 1025]);
    let per_block = 5 + prng.below(40);
    let small = prng.one_in(8);
    let total = if small { 300 } else { TOTAL };
    let mut rows = random::sized(prng, length, per_block, total);
    notes::some(prng, &mut rows);
    if prng.one_in(2) {
        damage::rows(prng, &mut rows);
    }
    ask_file_of(checker, prng, &rows);
    let mut asked = Subjected::new(checker, Input::Rows(rows));
    if small {
        asked.ask_rows(prng);
    } else {
        asked.ask_folded(prng);
        asked.ask_without_notes(prng);
    }
}

/// A show in which many rows lie behind a link.
fn tangled_show(checker: &mut Checker, prng: &mut Prng) {
    let rows = random::show(prng, &random::TANGLED);
    let mut asked = Subjected::new(checker, Input::Rows(rows));
    asked.ask_folded(prng);
    asked.ask_without_notes(prng);
}

fn damaged_file(checker: &mut Checker, prng: &mut Prng) {
    let mut rows = small(prng);
    if prng.one_in(4) {
        damage::rows(prng, &mut rows);
    }
    let mut file = file_of(prng, &rows);
    damage::file(prng, &mut file);
    ask_file(checker, prng, file);
}

/// Damaged rows, also as a file.
fn damaged_rows(checker: &mut Checker, prng: &mut Prng) {
    let mut rows = small(prng);
    damage::rows(prng, &mut rows);
    ask_file_of(checker, prng, &rows);
    ask_rows(checker, prng, rows);
}

/// Reads a file the second way, and now and then as it is; asks everything about what is read.
fn ask_desk_file(checker: &mut Checker, prng: &mut Prng, file: Vec<u8>) -> Option<Vec<u32>> {
    if prng.one_in(4) {
        ask_file(checker, prng, file.clone());
    }
    let mut asked = Subjected::new(checker, Input::Desk(file));
    asked.ask_file(prng);
    asked.known.ok().map(|show| show.rows.concat())
}

/// A show whose blocks use those of the desk.
fn desk_show(checker: &mut Checker, prng: &mut Prng) {
    let shape = prng.pick(&random::SHAPES);
    let own = random::desk_show(prng, shape);
    let file = file_of(prng, &own);
    if let Some(rows) = ask_desk_file(checker, prng, file) {
        ask_rows(checker, prng, rows);
    }
}

/// Damage in the rows, in the text, or in both.
fn damaged_desk_file(checker: &mut Checker, prng: &mut Prng) {
    let shape = prng.pick(&random::SHAPES);
    let mut own = random::desk_show(prng, shape);
    let (rows, text) = *prng.pick(&[(true, false), (false, true), (true, true)]);
    if rows {
        damage::rows(prng, &mut own);
    }
    let mut file = file_of(prng, &own);
    if text {
        damage::file(prng, &mut file);
    }
    ask_desk_file(checker, prng, file);
}

/// Many rows, up to the most that the desk leaves room for and one more, whole or damaged.
fn long_desk_show(checker: &mut Checker, prng: &mut Prng) {
    let length = *prng.pick(&[100, 500, OWN_ROWS - 1, OWN_ROWS, OWN_ROWS + 1]);
    let per_block = 5 + prng.below(40);
    let mut own = random::desk_sized(prng, length, per_block, TOTAL);
    notes::some(prng, &mut own);
    if prng.one_in(2) {
        damage::rows(prng, &mut own);
    }
    let file = file_of(prng, &own);
    if let Some(rows) = ask_desk_file(checker, prng, file) {
        let mut asked = Subjected::new(checker, Input::Rows(rows));
        asked.ask_folded(prng);
        asked.ask_without_notes(prng);
    }
}
