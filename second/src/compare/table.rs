//! The rows of the desk as they stand in the library's source, as its program prints them, and as the
//! naive tool makes them.

use crate::limits::{Row, COLUMNS};
use crate::naive::desk::table;
use crate::naive::file::parse;

/// How the line begins that the rows of the source stand behind.
const BEGIN: &str = "const BUILT_IN: ";
/// The line that ends them.
const END: &str = "];";

/// Rows with the place that they stand in.
struct Stored {
    place: &'static str,
    rows: Vec<Row>,
}

/// What is wrong with the source or the printed file, by the first row that differs; nothing where
/// both have the rows of the naive tool.
pub fn difference(source: &str, printed: &[u8]) -> Option<String> {
    let made = Stored { place: "the naive tool", rows: table() };
    let stored = [
        in_source(source).map(|rows| Stored { place: "the source", rows }),
        in_file(printed).map(|rows| Stored { place: "the printed file", rows }),
    ];
    stored.into_iter().find_map(|stored| match stored {
        Err(problem) => Some(problem),
        Ok(stored) => differing(&stored, &made),
    })
}

/// The rows of the constant: each below its line of a show file, its numbers on one line or on several.
fn in_source(source: &str) -> Result<Vec<Row>, String> {
    let mut lines = source.lines().zip(1..);
    let begins = |line: &str| line.trim_start_matches("pub ").starts_with(BEGIN);
    if !lines.by_ref().any(|(line, _)| begins(line) && line.ends_with(" = [")) {
        return Err(format!("the source: no line begins with '{BEGIN}' and ends with '= ['"));
    }
    let mut rows = Vec::new();
    while let Some((line, number)) = lines.next() {
        if line == END {
            return Ok(rows);
        }
        let below = numbers_below(lines.by_ref().map(|(below, _)| below));
        let wrong = format!("the source: line {number} is no row above its numbers: '{line}'");
        rows.push(row_of(line, &below).ok_or(wrong)?);
    }
    Err(format!("the source: no line '{END}' ends the rows"))
}

/// The next numbers, as many as a row has, or fewer where a line has none.
fn numbers_below<'a>(lines: impl Iterator<Item = &'a str>) -> Vec<&'a str> {
    let mut numbers = Vec::new();
    for line in lines {
        let Some(some) = line.trim_start().strip_suffix(',') else { break };
        numbers.extend(some.split(", "));
        if numbers.len() >= COLUMNS {
            break;
        }
    }
    numbers
}

/// The row that a comment and the numbers below it say, if both say the same.
fn row_of(comment: &str, below: &[&str]) -> Option<Row> {
    let said = row_in(comment.trim_start().strip_prefix("// ")?.split(','))?;
    (row_in(below.iter().copied()) == Some(said)).then_some(said)
}

fn row_in<'a>(values: impl Iterator<Item = &'a str>) -> Option<Row> {
    let row: Option<Vec<u32>> = values.map(|value| value.parse().ok()).collect();
    row?.try_into().ok()
}

fn in_file(printed: &[u8]) -> Result<Vec<Row>, String> {
    parse(printed).map_err(|refusal| {
        let (number, place) = (refusal.number, refusal.place);
        format!("the printed file is no show file: refusal {number}, place {place}")
    })
}

/// The first row that is not the same in both places.
fn differing(one: &Stored, other: &Stored) -> Option<String> {
    let many = one.rows.len().max(other.rows.len());
    let row = (0..many).find(|row| one.rows.get(*row) != other.rows.get(*row))?;
    let told = |stored: &Stored| format!("{} has {}", stored.place, said(stored.rows.get(row)));
    Some(format!("row {}: {}, {}", row + 1, told(one), told(other)))
}

fn said(row: Option<&Row>) -> String {
    let text = |row: &Row| row.map(|value| value.to_string()).join(",");
    row.map_or("none".to_string(), text)
}

#[cfg(test)]
mod tests {
    use super::*;
    use crate::limits::DESK_ROWS;
    use crate::naive::file::print;

    /// A source with these rows.
    fn source(rows: &[Row]) -> String {
        let lines: String = rows
            .iter()
            .map(|row| {
                let row = row.map(|value| value.to_string());
                format!("    // {}\n    {},\n", row.join(","), row.join(",\n    "))
            })
            .collect();
        format!("const OTHER: [u32; 2] = [\n    1,\n];\n\npub {BEGIN}[u32; DESK_SIZE] = [\n{lines}{END}\n\nfn more() {{}}\n")
    }

    #[test]
    fn the_same_rows_in_all_places() {
        let (rows, file) = (table(), print(&table()));
        assert_eq!(difference(&source(&rows), &file), None);
        assert_eq!(difference(&source(&rows).replace("pub const", "const"), &file), None);
    }

    #[test]
    fn every_changed_value_is_seen() {
        let (text, file) = (source(&table()), print(&table()));
        for (row, column) in
            (0..DESK_ROWS).flat_map(|row| (0..COLUMNS).map(move |column| (row, column)))
        {
            let mut rows = table();
            rows[row][column] += 1;
            let begins = format!("row {}: ", row + 1);
            for said in [difference(&source(&rows), &file), difference(&text, &print(&rows))] {
                assert!(said.expect("a difference").starts_with(&begins));
            }
        }
    }

    #[test]
    fn a_difference_names_its_row() {
        let (mut rows, file) = (table(), print(&table()));
        rows[2][4] = 3;
        let said = "has 0,1,1,2,3,0,0,0,0,0,0, the naive tool has 0,1,1,2,1,0,0,0,0,0,0";
        assert_eq!(difference(&source(&rows), &file), Some(format!("row 3: the source {said}")));
        let printed = difference(&source(&table()), &print(&rows));
        assert_eq!(printed, Some(format!("row 3: the printed file {said}")));
    }

    #[test]
    fn a_row_too_few_or_too_many_is_seen() {
        let (text, mut rows) = (source(&table()), table());
        let last = rows.pop().expect("the table has rows");
        let said = "has none, the naive tool has 15,1,1,17,1,0,0,0,0,0,0";
        let expected = |place: &str| Some(format!("row 168: {place} {said}"));
        assert_eq!(difference(&text, &print(&rows)), expected("the printed file"));
        assert_eq!(difference(&source(&rows), &print(&table())), expected("the source"));
        rows.extend([last, last]);
        let said = difference(&text, &print(&rows)).expect("a difference");
        assert!(
            said.starts_with("row 169: ") && said.ends_with("the naive tool has none"),
            "{said}"
        );
    }

    #[test]
    fn what_is_no_table_is_told() {
        let (text, file) = (source(&table()), print(&table()));
        let told = |source: &str, file: &[u8]| difference(source, file).expect("a difference");
        assert!(told("", &file).starts_with("the source: no line begins with"));
        assert!(told(&text.replace("BUILT_IN", "BUILT"), &file).contains("no line begins with"));
        assert!(told(&text.replace("];", "]"), &file).starts_with("the source: line "));
        let cut = text.split_once("];\n\nfn").expect("the rows end").0;
        assert_eq!(told(cut, &file), "the source: no line '];' ends the rows");
        let wrong = |line: u32| format!("the source: line {line} is no row above its numbers: ");
        let ten = text.replacen("// 0,0,2,1,0", "// 0,0,2,1", 1);
        assert!(told(&ten, &file).starts_with(&wrong(6)));
        let other = text.replacen("// 0,1,1,1,3", "// 0,1,1,1,2", 1);
        assert!(told(&other, &file).starts_with(&wrong(18)));
        let refused = "the printed file is no show file: refusal 2, place 1";
        assert_eq!(told(&text, b""), refused);
    }
}
