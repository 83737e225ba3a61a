//! Holds the comparison of listings to the program folddiff.

mod common;

use chanrelout::{diff, first_difference, Kind, Refusal, LONGEST_LISTING};
use common::{data, printed_in, split};

/// As folddiff prints it.
fn printed(left: &[u8], right: &[u8]) -> String {
    match diff(left, right) {
        Ok(lines) => lines.map(|found| format!("{}\t{}\n", found.line, found.kind)).collect(),
        Err(refusal) => format!("refused\t{}\n", refusal.number()),
    }
}

#[test]
fn listings_differ_as_by_folddiff() {
    let (left, right) = (data("folddiff", "left.txt"), data("folddiff", "right.txt"));
    let no_end = &left[..left.len() - 1];
    let long = b"bool:1\n".repeat(4682);
    assert!(long.len() > LONGEST_LISTING);
    let cases: [(&[u8], &[u8]); 9] = [
        (&left, &right),
        (&right, &left),
        (&left, no_end),
        (&left, b""),
        (b"", b""),
        (b"", b"\n"),
        (b"x", &long),
        (&long[..LONGEST_LISTING - 1], b""),
        (&long, &right),
    ];
    for (left, right) in cases {
        let folddiff = printed_in("folddiff", &[("left.txt", left), ("right.txt", right)]);
        assert_eq!(printed(left, right).as_bytes(), folddiff);
    }
}

#[test]
fn the_first_line_stands_in_its_listing() {
    let (left, right) = (data("folddiff", "left.txt"), data("folddiff", "right.txt"));
    let first = diff(&left, &right).unwrap().next().unwrap();
    let line = first_difference(&left, &right).unwrap();
    assert_eq!(line.as_bytes(), split(&right)[first.line - 1]);
    assert!(right.as_ptr_range().contains(&line.as_ptr()));

    let ended = &right[..right.len() / 2];
    let ended = &ended[..ended.iter().rposition(|&byte| byte == b'\n').unwrap() + 1];
    let line = first_difference(&right, ended).unwrap();
    assert_eq!(line.as_bytes(), split(&right)[split(ended).len()]);
    assert!(right.as_ptr_range().contains(&line.as_ptr()));

    assert_eq!(first_difference(&left, &left), None);
    assert_eq!(first_difference(b"", b""), None);
    assert_eq!(first_difference(b"", b"i32:0\n"), None);
    assert_eq!(diff(b"", b"i32:0\n").unwrap_err(), Refusal::NoAnswerLine);
}

#[test]
fn every_kind_is_met() {
    let (left, right) = (data("folddiff", "left.txt"), data("folddiff", "right.txt"));
    let kinds: Vec<Kind> = diff(&left, &right).unwrap().map(|found| found.kind).collect();
    for kind in [Kind::Missing, Kind::Refusal, Kind::Type, Kind::Value, Kind::Nan, Kind::Zero] {
        assert!(kinds.contains(&kind), "{kind}");
    }
}
