//! Answer lines read and ordered by another reading of document 02 than the proved one: by the Rust's own
//! comparisons, `f32::total_cmp` among them.

use std::cmp::Ordering;

/// The types in their order, with the kind of their lanes and how many there are.
const SCALARS: [(&str, Lane); 5] =
    [("bool", Lane::Bool), ("i32", Lane::I32), ("u32", Lane::U32), ("f32", Lane::F32), ("f16", Lane::F16)];

#[derive(Clone, Copy, Debug, PartialEq, Eq)]
pub enum Lane {
    Bool,
    I32,
    U32,
    F32,
    F16,
}

impl Lane {
    pub fn digits(self) -> usize {
        match self {
            Lane::Bool => 1,
            Lane::F16 => 4,
            Lane::I32 | Lane::U32 | Lane::F32 => 8,
        }
    }

    fn is_float(self) -> bool {
        matches!(self, Lane::F32 | Lane::F16)
    }

    /// A float lane as an f32 of the same kind: zero, NaN or neither.
    pub fn as_f32(self, bits: u32) -> Option<f32> {
        match self {
            Lane::F32 => Some(f32::from_bits(bits)),
            Lane::F16 => Some(widened(bits)),
            Lane::Bool | Lane::I32 | Lane::U32 => None,
        }
    }

    fn compare(self, a: u32, b: u32) -> Ordering {
        match self {
            Lane::Bool | Lane::U32 => a.cmp(&b),
            Lane::I32 => (a as i32).cmp(&(b as i32)),
            Lane::F32 => f32::from_bits(a).total_cmp(&f32::from_bits(b)),
            Lane::F16 => widened(a).total_cmp(&widened(b)),
        }
    }
}

/// A half as an f32 that keeps the sign, the order and, of a NaN, the payload: the fields are only moved, so that a
/// subnormal half becomes a subnormal f32 and not the same number, but one in the same place.
fn widened(half: u32) -> f32 {
    let (sign, exponent, digits) = (half >> 15, half >> 10 & 31, half & 1023);
    let exponent = if exponent == 31 { 255 } else { exponent };
    f32::from_bits(sign << 31 | exponent << 23 | digits << 13)
}

#[derive(Clone, Debug, PartialEq, Eq)]
pub struct Type {
    pub spelling: String,
    pub lane: Lane,
    pub count: usize,
    matrix: bool,
}

/// Every type, in the order of docs/ORDER.md.
pub fn types() -> Vec<Type> {
    let mut all = Vec::new();
    for (name, lane) in SCALARS {
        all.push(Type { spelling: name.to_string(), lane, count: 1, matrix: false });
    }
    for count in 2..=4 {
        for (name, lane) in SCALARS {
            all.push(Type { spelling: format!("vec{count}<{name}>"), lane, count, matrix: false });
        }
    }
    for (name, lane) in &SCALARS[3..] {
        for columns in 2..=4 {
            for rows in 2..=4 {
                let spelling = format!("mat{columns}x{rows}<{name}>");
                all.push(Type { spelling, lane: *lane, count: columns * rows, matrix: true });
            }
        }
    }
    all
}

#[derive(Clone, Debug, PartialEq, Eq)]
pub struct Value {
    /// The type's place in the list.
    pub place: usize,
    pub lanes: Vec<u32>,
}

/// What an answer line says.
#[derive(Clone, Debug, PartialEq, Eq)]
pub enum Answer {
    Values(Value, Option<Value>),
    Refused,
}

/// Reads and orders, by one list of types.
pub struct Reader {
    pub types: Vec<Type>,
}

impl Reader {
    pub fn new() -> Reader {
        Reader { types: types() }
    }

    /// A line without its newline; none where it is no answer line.
    pub fn read(&self, line: &[u8]) -> Option<Answer> {
        let line = std::str::from_utf8(line).ok()?;
        let fields: Vec<&str> = line.split('\t').collect();
        match fields[..] {
            ["refused", number] if is_number(number) => Some(Answer::Refused),
            ["refused", number, place] if is_number(number) && is_number(place) => Some(Answer::Refused),
            [value] => Some(Answer::Values(self.value(value)?, None)),
            [first, second] => {
                let (first, second) = (self.value(first)?, self.value(second)?);
                self.is_pair(&first, &second).then(|| Answer::Values(first, Some(second)))
            }
            _ => None,
        }
    }

    fn value(&self, text: &str) -> Option<Value> {
        let (ty, digits) = text.split_once(':')?;
        let place = self.types.iter().position(|known| known.spelling == ty)?;
        let Type { lane, count, .. } = self.types[place];
        let lanes = digits.split(',').map(|digits| read_lane(lane, digits)).collect::<Option<Vec<_>>>()?;
        (lanes.len() == count).then(|| Value { place, lanes })
    }

    /// A float value and i32s in its shape.
    fn is_pair(&self, first: &Value, second: &Value) -> bool {
        let (first, second) = (&self.types[first.place], &self.types[second.place]);
        first.lane.is_float() && second.lane == Lane::I32 && first.count == second.count && !first.matrix
    }

    fn compare_values(&self, a: &Value, b: &Value) -> Ordering {
        a.place.cmp(&b.place).then_with(|| {
            let lane = self.types[a.place].lane;
            let lanes = a.lanes.iter().zip(&b.lanes).map(|(&a, &b)| lane.compare(a, b));
            lanes.fold(Ordering::Equal, Ordering::then)
        })
    }

    /// Refused lines last; by the first values, a lone value before a pair, by the second values.
    pub fn compare(&self, a: &Answer, b: &Answer) -> Ordering {
        match (a, b) {
            (Answer::Refused, Answer::Refused) => Ordering::Equal,
            (Answer::Refused, _) => Ordering::Greater,
            (_, Answer::Refused) => Ordering::Less,
            (Answer::Values(a, second_a), Answer::Values(b, second_b)) => {
                self.compare_values(a, b).then_with(|| match (second_a, second_b) {
                    (None, None) => Ordering::Equal,
                    (None, Some(_)) => Ordering::Less,
                    (Some(_), None) => Ordering::Greater,
                    (Some(a), Some(b)) => self.compare_values(a, b),
                })
            }
        }
    }

    /// What foldsort is to print for a listing.
    pub fn printed(&self, listing: &[u8]) -> Vec<u8> {
        if listing.len() > 32_768 {
            return b"refused\t15\n".to_vec();
        }
        let lines = crate::difference::lines(listing);
        if lines.len() > 512 {
            return b"refused\t17\n".to_vec();
        }
        let answers: Option<Vec<Answer>> = lines.iter().map(|line| self.read(line)).collect();
        let answers = match answers {
            Some(answers) => answers,
            None => return b"refused\t14\n".to_vec(),
        };
        let mut order: Vec<usize> = (0..lines.len()).collect();
        // a stable sort: ties stay by line number
        order.sort_by(|&i, &j| self.compare(&answers[i], &answers[j]));
        order.iter().flat_map(|&i| lines[i].iter().copied().chain([b'\n'])).collect()
    }
}

fn is_number(text: &str) -> bool {
    (1..=3).contains(&text.len()) && text.bytes().all(|byte| byte.is_ascii_digit())
}

fn read_lane(lane: Lane, text: &str) -> Option<u32> {
    let spelled = text.len() == lane.digits() && text.bytes().all(|byte| matches!(byte, b'0'..=b'9' | b'A'..=b'F'));
    let bits = u32::from_str_radix(text, 16).ok().filter(|_| spelled)?;
    (lane != Lane::Bool || bits < 2).then_some(bits)
}

#[cfg(test)]
mod tests {
    use super::*;

    #[test]
    fn lines_that_are_no_answer_lines() {
        let reader = Reader::new();
        for line in [
            "",
            "refused",
            "refused\t",
            "refused\t1234",
            "refused\t1\t2\t3",
            "refused\t-1",
            "i32:0000000",
            "bool:2",
            "f32:7fc00000",
            "i32:00000000\ti32:00000000",
            "f32:00000000\tvec2<i32>:00000000,00000000",
            "vec4f:0",
            "mat2x2<f32>:00000000,00000000,00000000,00000000\tvec4<i32>:00000000,00000000,00000000,00000000",
            "f32:00000000\t",
            "vec2<f16>:3C00",
            "vec2<f16>:3C00,3C00,3C00",
        ] {
            assert_eq!(reader.read(line.as_bytes()), None, "{line}");
        }
        assert!(reader.read(b"f16:3C00\ti32:00000001").is_some() && reader.read(b"refused\t11\t399").is_some());
    }

    #[test]
    fn halves_keep_their_order_as_f32() {
        // by the whole number that a half's pattern is, which no float comparison takes part in
        let key = |half: u32| if half < 0x8000 { half as i32 } else { !(half as i32 & 0x7FFF) };
        let mut halves: Vec<u32> = (0..=0xFFFF).collect();
        halves.sort_by_key(|&half| key(half));
        assert!(halves.windows(2).all(|two| Lane::F16.compare(two[0], two[1]) == Ordering::Less));
    }
}
