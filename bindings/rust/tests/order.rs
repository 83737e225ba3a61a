//! Holds the order of values and the sorted index to the program foldsort.

mod common;

use chanrelout::{sort_listing, sort_listing_into, Refusal, Value, LONGEST_LISTING, MOST_LINES};
use common::{printed_by, split, stored};
use std::cmp::Ordering;

fn joined(lines: impl Iterator<Item = Vec<u8>>) -> Vec<u8> {
    lines.flat_map(|line| line.into_iter().chain([b'\n'])).collect()
}

/// The values that stand alone on a line of foldsort's stored input.
fn values() -> Vec<Value> {
    let lines = split(&stored("foldsort"));
    let values: Vec<Value> = lines.iter().filter_map(|line| std::str::from_utf8(line).ok()?.parse().ok()).collect();
    assert!(values.len() > 100, "{}", values.len());
    values
}

#[test]
fn values_stand_as_foldsort_has_them() {
    let mut values = values();
    let listing = joined(values.iter().map(|value| value.to_string().into_bytes()));
    values.sort();
    let ours = joined(values.iter().map(|value| value.to_string().into_bytes()));
    assert_eq!(ours, printed_by("foldsort", &listing));
}

#[test]
fn every_two_values_stand_in_one_way() {
    let values = values();
    for a in &values {
        for b in &values {
            assert_eq!(a.cmp(b), b.cmp(a).reverse(), "{a} {b}");
            assert_eq!(a.cmp(b) == Ordering::Equal, a == b, "{a} {b}");
        }
    }
}

#[test]
fn f32s_stand_by_total_cmp() {
    let mut bits: Vec<u32> =
        (0..=8).flat_map(|top| [0, 1, 0x3F_FFFF, 0x40_0000, 0x7F_FFFF].map(|low| top << 28 | low)).collect();
    bits.extend([0x7F80_0000, 0x7F80_0001, 0x7FC0_0000, 0x7FFF_FFFF].iter().flat_map(|&nan| [nan, nan | 0x8000_0000]));
    for &a in &bits {
        for &b in &bits {
            let (a, b) = (f32::from_bits(a), f32::from_bits(b));
            assert_eq!(Value::from(a).cmp(&Value::from(b)), a.total_cmp(&b), "{:08X} {:08X}", a.to_bits(), b.to_bits());
        }
    }
}

#[test]
fn listings_are_sorted_as_by_foldsort() {
    let listing = stored("foldsort");
    let lines = split(&listing);
    let index = sort_listing(&listing).unwrap();
    let ours = joined(index.iter().map(|&number| lines[usize::from(number) - 1].clone()));
    assert_eq!(ours, printed_by("foldsort", &listing));
    assert_eq!(sort_listing(b""), Ok(vec![]));
}

#[test]
fn a_refused_listing_leaves_the_index() {
    let refused = |count: usize| b"refused\t1\n".repeat(count);
    for (listing, room, refusal) in [
        (vec![b'x'; LONGEST_LISTING + 1], 0, Refusal::ListingTooLong),
        (vec![b'\n'; MOST_LINES + 1], 0, Refusal::TooManyLines),
        (vec![b'\n'; MOST_LINES], 0, Refusal::NoAnswerLine),
        (b"i32:1\n".to_vec(), 0, Refusal::NoAnswerLine),
        (refused(MOST_LINES), MOST_LINES - 1, Refusal::NoRoom),
        (b"i32:00000000".to_vec(), 0, Refusal::NoRoom),
    ] {
        let mut index = vec![0xA5A5; room];
        assert_eq!(sort_listing_into(&listing, &mut index), Err(refusal));
        assert!(index.iter().all(|&entry| entry == 0xA5A5));
        let program = printed_by("foldsort", &listing);
        match refusal {
            // the program's index has room for any listing
            Refusal::NoRoom => assert_eq!(split(&program).len(), split(&listing).len()),
            _ => assert_eq!(program, format!("refused\t{}\n", refusal.number()).into_bytes()),
        }
    }
}

#[test]
fn an_index_past_the_last_line_stays() {
    let mut index = [0xA5A5; 5];
    assert_eq!(sort_listing_into(b"u32:00000002\nu32:00000001\nu32:00000000", &mut index), Ok(&[3, 2, 1][..]));
    assert_eq!(index, [3, 2, 1, 0xA5A5, 0xA5A5]);
}
