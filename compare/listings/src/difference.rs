//! How two listings differ, by another reading of document 02 than the proved one.

use crate::answer::{Answer, Lane, Reader, Value};

/// What folddiff is to print for two listings.
pub fn printed(reader: &Reader, left: &[u8], right: &[u8]) -> Vec<u8> {
    if left.len() > 32_768 || right.len() > 32_768 {
        return b"refused\t15\n".to_vec();
    }
    let (left, right) = (lines(left), lines(right));
    if left.iter().chain(&right).any(|line| reader.read(line).is_none()) {
        return b"refused\t14\n".to_vec();
    }
    let mut text = Vec::new();
    for i in 0..left.len().max(right.len()) {
        let kind = match (left.get(i), right.get(i)) {
            (Some(left), Some(right)) => kind(reader, left, right),
            _ => Some("missing"),
        };
        if let Some(kind) = kind {
            text.extend(format!("{}\t{kind}\n", i + 1).bytes());
        }
    }
    text
}

pub fn lines(listing: &[u8]) -> Vec<&[u8]> {
    let mut lines: Vec<&[u8]> = listing.split(|&byte| byte == b'\n').collect();
    if lines.last().map_or(false, |last| last.is_empty()) {
        lines.pop();
    }
    lines
}

/// None where the lines are the same to the byte.
fn kind(reader: &Reader, left: &[u8], right: &[u8]) -> Option<&'static str> {
    if left == right {
        return None;
    }
    let read = |line| reader.read(line).expect("an answer line");
    let (a, b) = match (read(left), read(right)) {
        (Answer::Values(a, more_a), Answer::Values(b, more_b)) => {
            let values = |value: Value, more: Option<Value>| [value].into_iter().chain(more).collect::<Vec<Value>>();
            (values(a, more_a), values(b, more_b))
        }
        _ => return Some("refusal"),
    };
    let places = |values: &[Value]| values.iter().map(|value| value.place).collect::<Vec<_>>();
    if places(&a) != places(&b) {
        return Some("type");
    }
    let mut nan = false;
    for (a, b) in a.iter().zip(&b) {
        let lane = reader.types[a.place].lane;
        for (&x, &y) in a.lanes.iter().zip(&b.lanes) {
            match lane_difference(lane, x, y) {
                Unlike::Value => return Some("value"),
                Unlike::Nan => nan = true,
                Unlike::Zero | Unlike::Nothing => {}
            }
        }
    }
    Some(if nan { "nan" } else { "zero" })
}

enum Unlike {
    Nothing,
    Zero,
    Nan,
    Value,
}

fn lane_difference(lane: Lane, x: u32, y: u32) -> Unlike {
    let floats = lane.as_f32(x).zip(lane.as_f32(y));
    match floats {
        _ if x == y => Unlike::Nothing,
        Some((x, y)) if x.is_nan() && y.is_nan() => Unlike::Nan,
        Some((x, y)) if x == 0.0 && y == 0.0 => Unlike::Zero,
        _ => Unlike::Value,
    }
}

#[cfg(test)]
mod tests {
    use super::*;

    #[test]
    fn each_kind() {
        let reader = Reader::new();
        for (left, right, wanted) in [
            ("", "", ""),
            ("i32:00000000\n", "i32:00000000", ""),
            ("", "i32:00000000\n", "1\tmissing\n"),
            ("refused\t3\n", "refused\t03\n", "1\trefusal\n"),
            ("f32:00000000\n", "u32:00000000\n", "1\ttype\n"),
            ("f32:00000000\n", "f32:00000000\ti32:00000000\n", "1\ttype\n"),
            ("f32:7FC00000\n", "f32:7F800000\n", "1\tvalue\n"),
            ("i32:80000000\n", "i32:00000000\n", "1\tvalue\n"),
            ("vec2<f32>:7FC00000,80000000\n", "vec2<f32>:FFC00000,00000000\n", "1\tnan\n"),
            ("f16:8000\n", "f16:0000\n", "1\tzero\n"),
            ("i32:0\n", "", "refused\t14\n"),
        ] {
            assert_eq!(printed(&reader, left.as_bytes(), right.as_bytes()), wanted.as_bytes(), "{left}{right}");
        }
    }
}
