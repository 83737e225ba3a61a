//! Listings from a seed, the same on every machine: of every type, with the bits that an order goes wrong at.

use crate::answer::{Lane, Reader, Type};

/// splitmix64.
pub struct Random(pub u64);

impl Random {
    fn next(&mut self) -> u64 {
        self.0 = self.0.wrapping_add(0x9E37_79B9_7F4A_7C15);
        let z = (self.0 ^ (self.0 >> 30)).wrapping_mul(0xBF58_476D_1CE4_E5B9);
        let z = (z ^ (z >> 27)).wrapping_mul(0x94D0_49BB_1331_11EB);
        z ^ (z >> 31)
    }

    pub fn below(&mut self, n: usize) -> usize {
        ((u128::from(self.next()) * n as u128) >> 64) as usize
    }

    fn pick<'a, T>(&mut self, from: &'a [T]) -> &'a T {
        &from[self.below(from.len())]
    }

    pub fn shuffle<T>(&mut self, all: &mut [T]) {
        for last in (1..all.len()).rev() {
            all.swap(last, self.below(last + 1));
        }
    }
}

/// Zeros, ones, infinities, NaNs of both signs, quiet and signalling, and their neighbours.
const F32S: [u32; 22] = [
    0,
    0x8000_0000,
    1,
    0x8000_0001,
    0x3F80_0000,
    0xBF80_0000,
    0x7F7F_FFFF,
    0xFF7F_FFFF,
    0x7F80_0000,
    0xFF80_0000,
    0x7F80_0001,
    0xFF80_0001,
    0x7FBF_FFFF,
    0xFFBF_FFFF,
    0x7FC0_0000,
    0xFFC0_0000,
    0x7FC0_0001,
    0xFFC0_0001,
    0x7FFF_FFFF,
    0xFFFF_FFFF,
    0x0080_0000,
    0x007F_FFFF,
];
const F16S: [u32; 18] = [
    0, 0x8000, 1, 0x8001, 0x3C00, 0xBC00, 0x7BFF, 0xFBFF, 0x7C00, 0xFC00, 0x7C01, 0xFC01, 0x7DFF, 0xFDFF, 0x7E00,
    0xFE00, 0x7FFF, 0xFFFF,
];
const I32S: [u32; 8] = [0, 1, 2, 0x7FFF_FFFF, 0x8000_0000, 0x8000_0001, 0xFFFF_FFFE, 0xFFFF_FFFF];

/// The bits that a kind of lane is tried with.
fn edges(lane: Lane) -> &'static [u32] {
    match lane {
        Lane::Bool => &I32S[..2],
        Lane::I32 | Lane::U32 => &I32S,
        Lane::F32 => &F32S,
        Lane::F16 => &F16S,
    }
}

fn random_lane(random: &mut Random, lane: Lane) -> u32 {
    if random.below(4) > 0 {
        return *random.pick(edges(lane));
    }
    let bits = random.next() as u32;
    match lane {
        Lane::Bool => bits & 1,
        Lane::F16 => bits & 0xFFFF,
        Lane::I32 | Lane::U32 | Lane::F32 => bits,
    }
}

fn spelled(ty: &Type, lanes: &[u32]) -> String {
    let lanes: Vec<String> =
        lanes.iter().map(|lane| format!("{:0digits$X}", lane, digits = ty.lane.digits())).collect();
    format!("{}:{}", ty.spelling, lanes.join(","))
}

fn random_value(random: &mut Random, ty: &Type) -> String {
    let lanes: Vec<u32> = (0..ty.count).map(|_| random_lane(random, ty.lane)).collect();
    spelled(ty, &lanes)
}

/// The type of i32s in the shape of a float scalar or vector.
fn exponents<'a>(reader: &'a Reader, ty: &Type) -> Option<&'a Type> {
    let shape = ty.spelling.replace("f32", "i32").replace("f16", "i32");
    let float = ty.spelling.contains('f') && !ty.spelling.starts_with("mat");
    reader.types.iter().find(|other| other.spelling == shape).filter(|_| float)
}

fn random_line(random: &mut Random, reader: &Reader) -> String {
    match random.below(10) {
        0 => match random.below(2) {
            0 => format!("refused\t{}", random.below(1000)),
            _ => format!("refused\t{}\t{:03}", random.below(18), random.below(1000)),
        },
        1 | 2 => loop {
            let ty = random.pick(&reader.types);
            if let Some(second) = exponents(reader, ty) {
                break format!("{}\t{}", random_value(random, ty), random_value(random, second));
            }
        },
        // scalars oftener than matrices, so that lines meet at a type
        _ => {
            let most = *random.pick(&[5, 5, 20, reader.types.len()]);
            let place = random.below(most);
            random_value(random, &reader.types[place])
        }
    }
}

fn damaged(random: &mut Random, line: &str) -> Vec<u8> {
    let mut bytes = line.as_bytes().to_vec();
    let at = random.below(bytes.len() + 1);
    let byte = *random.pick(b"\t:,09AFag<>x \r\0\xFF");
    match random.below(4) {
        0 => bytes.insert(at, byte),
        1 if at < bytes.len() => bytes[at] = byte,
        2 if at < bytes.len() => drop(bytes.remove(at)),
        _ => bytes.truncate(at),
    }
    bytes
}

/// A listing: mostly of a few dozen answer lines, some of them twice; sometimes with a damaged line, with about 512
/// lines, or with about 32,768 bytes.
pub fn random_listing(random: &mut Random, reader: &Reader) -> Vec<u8> {
    let mut lines: Vec<Vec<u8>> = Vec::new();
    let count = match random.below(20) {
        0 => 0,
        1 => 1,
        2 => 505 + random.below(12),
        _ => random.below(60),
    };
    while lines.len() < count {
        let line = match random.below(6) {
            0 if !lines.is_empty() => random.pick(&lines).clone(),
            _ => random_line(random, reader).into_bytes(),
        };
        lines.push(line);
    }
    if random.below(6) == 0 && !lines.is_empty() {
        let at = random.below(lines.len());
        lines[at] = damaged(random, &String::from_utf8_lossy(&lines[at]));
    }
    let mut listing = lines.join(&b'\n');
    if random.below(8) > 0 && !lines.is_empty() {
        listing.push(b'\n');
    }
    if random.below(25) == 0 {
        fill(&mut listing, 32_760 + random.below(16));
    }
    listing
}

/// Up to a size, by lines of about the greatest length.
fn fill(listing: &mut Vec<u8>, size: usize) {
    if listing.last().map_or(false, |&byte| byte != b'\n') {
        listing.push(b'\n');
    }
    let longest = format!("mat4x4<f32>:{}\n", ["3F800000"; 16].join(","));
    while listing.len() + longest.len() + 16 < size {
        listing.extend_from_slice(longest.as_bytes());
    }
    // refused lines of 10 to 12 bytes each make up the rest but for a byte or so
    while listing.len() + 22 < size {
        listing.extend_from_slice(b"refused\t7\n");
    }
    let left = size.saturating_sub(listing.len());
    listing.extend_from_slice(match left {
        0..=10 => b"refused\t7\n",
        11 => b"refused\t77\n",
        12 => b"refused\t777\n",
        13 => b"refused\t7\t77\n",
        14 => b"refused\t7\t777\n",
        15 => b"refused\t77\t777\n",
        _ => b"refused\t777\t777\n",
    });
}

/// Lines of which no two stand in one place of the order.
pub fn distinct_lines(random: &mut Random, reader: &Reader) -> Vec<String> {
    let mut lines: Vec<String> = Vec::new();
    while lines.len() < 40 {
        let line = random_line(random, reader);
        let answer = reader.read(line.as_bytes()).expect("an answer line");
        let new =
            |other: &String| reader.compare(&reader.read(other.as_bytes()).expect("an answer line"), &answer).is_ne();
        if lines.iter().all(new) {
            lines.push(line);
        }
    }
    lines
}

/// The listing that the gate replays: every type, every edge of every kind of lane, pairs, refusals and duplicates, in no
/// order.
pub fn every_listing(reader: &Reader) -> Vec<u8> {
    let mut lines = Vec::new();
    for ty in &reader.types {
        let edges = edges(ty.lane);
        for (i, &edge) in edges.iter().enumerate() {
            // scalars with every edge; of the others two, so that all stay within a listing
            if ty.count > 1 && i % (edges.len() / 2) != 0 {
                continue;
            }
            let mut lanes = vec![edges[1]; ty.count];
            lanes[i % ty.count] = edge;
            lines.push(spelled(ty, &lanes));
            if let Some(second) = exponents(reader, ty) {
                let lanes = vec![I32S[i % I32S.len()]; second.count];
                lines.push(format!("{}\t{}", lines[lines.len() - 1], spelled(second, &lanes)));
            }
        }
    }
    for number in [0, 1, 7, 14, 15, 17, 999] {
        lines.push(format!("refused\t{number}"));
        lines.push(format!("refused\t{number}\t{:03}", number));
    }
    let again: Vec<String> = lines.iter().step_by(9).cloned().collect();
    lines.extend(again);
    Random(13).shuffle(&mut lines);
    lines.iter().flat_map(|line| line.bytes().chain([b'\n'])).collect()
}

/// A listing and one that came of it: lanes, lines and ends changed.
pub fn random_pair(random: &mut Random, reader: &Reader) -> (Vec<u8>, Vec<u8>) {
    let left = random_listing(random, reader);
    let mut lines: Vec<Vec<u8>> = crate::difference::lines(&left).iter().map(|line| line.to_vec()).collect();
    for _ in 0..random.below(8) {
        if lines.is_empty() {
            break;
        }
        let at = random.below(lines.len());
        match random.below(8) {
            0 => lines[at] = random_line(random, reader).into_bytes(),
            1 => drop(lines.remove(at)),
            2 => lines.insert(at, random_line(random, reader).into_bytes()),
            3 => lines.truncate(at),
            _ => lines[at] = lane_changed(random, reader, &lines[at]),
        }
    }
    if random.below(25) == 0 && !lines.is_empty() {
        let at = random.below(lines.len());
        lines[at] = damaged(random, &String::from_utf8_lossy(&lines[at]));
    }
    let mut right = lines.join(&b'\n');
    if random.below(8) > 0 && !lines.is_empty() {
        right.push(b'\n');
    }
    if random.below(2) == 0 {
        (left, right)
    } else {
        (right, left)
    }
}

/// The line with one lane changed: the sign of it, or to another edge of its kind.
fn lane_changed(random: &mut Random, reader: &Reader, line: &[u8]) -> Vec<u8> {
    let text = String::from_utf8_lossy(line);
    let (ty, lanes) = match text.split('\t').next().and_then(|value| value.split_once(':')) {
        Some((ty, lanes)) => (reader.types.iter().find(|known| known.spelling == ty), lanes),
        None => return line.to_vec(),
    };
    let ty = match ty {
        Some(ty) => ty,
        None => return line.to_vec(),
    };
    let mut lanes: Vec<u32> = match lanes.split(',').map(|lane| u32::from_str_radix(lane, 16)).collect() {
        Ok(lanes) => lanes,
        Err(_) => return line.to_vec(),
    };
    let at = random.below(lanes.len());
    lanes[at] = match (random.below(2), ty.lane) {
        (0, Lane::F32) => lanes[at] ^ 0x8000_0000,
        (0, Lane::F16) => lanes[at] ^ 0x8000,
        _ => *random.pick(edges(ty.lane)),
    };
    let mut changed = spelled(ty, &lanes).into_bytes();
    changed.extend(text.split_once('\t').map_or(String::new(), |(_, second)| format!("\t{second}")).bytes());
    changed
}

/// The two listings that the gate compares: lines of every type that are the same, lines of every kind of difference in
/// every kind of lane, refusals on each side, and a right listing that goes on.
pub fn every_pair(reader: &Reader) -> (Vec<u8>, Vec<u8>) {
    let (mut left, mut right) = (Vec::new(), Vec::new());
    let mut push = |l: String, r: String| {
        left.push(l);
        right.push(r);
    };
    for ty in &reader.types {
        let edges = edges(ty.lane);
        let value = |lane: u32, at: usize| {
            let mut lanes = vec![edges[1]; ty.count];
            lanes[at % ty.count] = lane;
            spelled(ty, &lanes)
        };
        push(value(edges[0], 0), value(edges[0], 0));
        for (i, two) in edges.windows(2).enumerate() {
            // scalars at every edge; of the others a few, so that all stay within a listing
            if ty.count == 1 || i % 7 == 0 {
                push(value(two[0], i), value(two[1], i));
            }
        }
        if let Some(second) = exponents(reader, ty) {
            let pair =
                |lane: u32, more: u32| format!("{}\t{}", value(lane, 0), spelled(second, &vec![more; second.count]));
            push(pair(edges[0], 1), pair(edges[1], 1));
            push(pair(edges[0], 1), pair(edges[0], 2));
            push(pair(edges[0], 1), value(edges[0], 0));
        }
    }
    push("refused\t3".into(), "refused\t03".into());
    push("refused\t3".into(), "i32:00000000".into());
    push("i32:00000000".into(), "refused\t11\t9".into());
    push("refused\t4".into(), "refused\t4".into());
    right.push("bool:1".into());
    right.push("refused\t7".into());
    let joined = |lines: &[String]| lines.iter().flat_map(|line| line.bytes().chain([b'\n'])).collect();
    (joined(&left), joined(&right))
}
