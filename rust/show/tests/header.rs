//! The crates say what `include/show.h` says.

use show::{Place, Refused};

const HEADER: &str = include_str!("../../../include/show.h");

/// The value of a constant of the header: a number, or the product of two constants.
fn value(name: &str) -> u64 {
    let forms = [format!(" {name} = "), format!("#define {name} ")];
    let found = forms.iter().find_map(|form| HEADER.split_once(form.as_str()));
    let rest =
        found.unwrap_or_else(|| panic!("{name} is not in the header")).1.trim_start_matches('(');
    let text: &str = rest.split([',', ')', '/', '\n', 'u']).next().expect("a split has a part");
    text.split('*')
        .map(str::trim)
        .map(|part| part.parse().unwrap_or_else(|_| value(part)))
        .product()
}

#[test]
fn lengths_and_limits() {
    let constants = [
        ("SHOW_ROW_LEN", show::ROW_LEN),
        ("SHOW_MAX_ROWS", show::MAX_ROWS),
        ("SHOW_ROWS_LEN", show::ROWS_LEN),
        ("SHOW_DESK_BLOCKS", show::DESK_BLOCKS),
        ("SHOW_DESK_ROWS", show::DESK_ROWS),
        ("SHOW_DESK_MAX_OWN_ROWS", show::DESK_MAX_OWN_ROWS),
        ("SHOW_MAX_FILE", show::MAX_FILE),
        ("SHOW_MAX_VALUE", show::MAX_VALUE as usize),
        ("SHOW_MAX_BLOCKS", show::MAX_BLOCKS),
        ("SHOW_MAX_OWN", show::MAX_OWN as usize),
        ("SHOW_MAX_JOINS", show::MAX_JOINS),
        ("SHOW_MAX_LABEL", show::MAX_LABEL as usize),
        ("SHOW_MAX_FOLLOWED", show::MAX_FOLLOWED as usize),
        ("SHOW_MAX_WAIT", show::MAX_WAIT as usize),
        ("SHOW_MAX_CUES", show::MAX_CUES as usize),
        ("SHOW_PATH_LEN", show::PATH_LEN),
        ("SHOW_WORK_LEN", show::WORK_LEN),
        ("SHOW_SUMMARY_LEN", show::SUMMARY_LEN),
        ("SHOW_GIVEN_LEN", show_sys::GIVEN_LEN),
        ("SHOW_STACK_LEN", show::STACK_LEN),
        ("SHOW_NO_CHAIN", show::NO_CHAIN as usize),
    ];
    for (name, number) in constants {
        assert_eq!(value(name), number as u64, "{name}");
    }
    // Every length and limit of the header is in the list.
    let names = HEADER.lines().filter_map(|line| line.strip_prefix("#define ")?.split(' ').next());
    let limit = |name: &&str| ["SHOW_MAX_", "SHOW_DESK_"].iter().any(|head| name.starts_with(head));
    for name in names.filter(|name| name.ends_with("_LEN") || limit(name)) {
        assert!(constants.iter().any(|(listed, _)| *listed == name), "{name}");
    }
}

#[test]
fn refusals() {
    let at = Place::Line(7);
    let refusals = [
        ("SHOW_FILE_TOO_LONG", Refused::FileTooLong),
        ("SHOW_BAD_NAMES", Refused::BadNames),
        ("SHOW_BAD_LINE", Refused::BadLine(7)),
        ("SHOW_BAD_ROW_COUNT", Refused::BadRowCount),
        ("SHOW_CANNOT_FOLLOW", Refused::CannotFollow(at)),
        ("SHOW_OUT_OF_RANGE", Refused::OutOfRange(at)),
        ("SHOW_NAMED_TWICE", Refused::NamedTwice(at)),
        ("SHOW_OUT_OF_ORDER", Refused::OutOfOrder(at)),
        ("SHOW_BAD_BLOCK", Refused::BadBlock(at)),
        ("SHOW_TOO_MANY_CUES", Refused::TooManyCues(at)),
        ("SHOW_TOO_SHORT", Refused::TooShort),
        ("SHOW_NO_SUCH_CUE", Refused::NoSuchCue),
        ("SHOW_NO_SUCH_PATH", Refused::NoSuchPath),
        ("SHOW_NO_SUCH_LINK", Refused::NoSuchLink),
        ("SHOW_BAD_WAIT_LINE", Refused::BadWaitLine(7)),
        ("SHOW_WAIT_OUT_OF_RANGE", Refused::WaitOutOfRange(7)),
        ("SHOW_WAITS_OUT_OF_ORDER", Refused::WaitsOutOfOrder(7)),
    ];
    for ((name, refused), number) in refusals.into_iter().zip(1..) {
        assert_eq!((value(name), refused.number()), (number, number as u32));
        let case = format!("case {name}: return \"{}\";", refused.text());
        assert!(HEADER.contains(&case), "{case}");
    }
    // And "answered".
    assert_eq!(HEADER.matches("    case SHOW_").count(), refusals.len() + 1);
}

#[test]
fn a_refusal_says_its_place() {
    let said = |refused: Refused| refused.to_string();
    assert_eq!(
        said(Refused::NamedTwice(Place::Row(4))),
        "row 4: a link or a use names a cue twice"
    );
    assert_eq!(said(Refused::BadLine(2)), "line 2: the line is not eleven values");
    assert_eq!(said(Refused::TooShort), "a lent list is too short");
    let wait = "line 9: a label or a wait of the wait file is out of its range";
    assert_eq!(said(Refused::WaitOutOfRange(9)), wait);
    assert_eq!(Refused::BadWaitLine(1).place(), Some(Place::Line(1)));
    assert_eq!(said(Refused::Other { number: 99, place: 1 }), "an unknown refusal");
}

#[test]
fn versions() {
    assert!(HEADER.contains(&format!("#define SHOW_VERSION \"{}\"", show::VERSION)));
}
