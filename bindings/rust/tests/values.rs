//! Values as text, by the library: what is printed is read again, and what spells no value is told with its place.

use chanrelout::{Fault, Misspelled, Scalar, Type, Value};

fn fault(text: &str) -> (Fault, usize) {
    let Misspelled { fault, place } = text.parse::<Value>().unwrap_err();
    (fault, place)
}

#[test]
fn what_is_printed_is_read_again() {
    let mut lane = 0x9E37_79B9u32;
    for ty in Type::all() {
        for _ in 0..100 {
            let lanes: Vec<u32> = (0..ty.lane_count())
                .map(|_| {
                    lane = lane.wrapping_mul(0x0019_660D).wrapping_add(0x3C6E_F35F);
                    match ty.scalar() {
                        Scalar::Bool => lane >> 31,
                        Scalar::F16 => lane >> 16,
                        Scalar::I32 | Scalar::U32 | Scalar::F32 => lane,
                    }
                })
                .collect();
            let value = Value::new(ty, &lanes).unwrap();
            let text = value.to_string();
            assert!(text.starts_with(&format!("{ty}:")), "{text}");
            assert_eq!(text.parse(), Ok(value), "{text}");
        }
        assert_eq!(ty.to_string().parse(), Ok(ty));
    }
}

#[test]
fn types_are_spelled_as_in_the_text() {
    let spelled: Vec<String> = Type::all().map(|ty| ty.to_string()).collect();
    assert_eq!(spelled.len(), 38);
    for (number, text) in
        [(0, "bool"), (3, "f32"), (5, "vec2<bool>"), (19, "vec4<f16>"), (24, "mat3x3<f32>"), (37, "mat4x4<f16>")]
    {
        assert_eq!(spelled[number], text);
    }
}

#[test]
fn the_leftmost_fault_is_told_with_its_place() {
    for (text, expected) in [
        ("", (Fault::Type, 1)),
        ("f32", (Fault::Type, 1)),
        ("float:00000000", (Fault::Type, 1)),
        ("f32 :00000000", (Fault::Type, 1)),
        ("f32:0000000g", (Fault::Digit, 12)),
        ("f32:0000000", (Fault::Digit, 12)),
        ("f32:000000000", (Fault::Digit, 13)),
        ("bool:2", (Fault::Digit, 6)),
        ("vec2<f16>:3C00", (Fault::Lanes, 15)),
        ("vec2<f16>:3C00,0000,0000", (Fault::Lanes, 20)),
        ("vec2<f16>:3C0,0000", (Fault::Digit, 14)),
        ("i32:00000001\t", (Fault::Digit, 13)),
    ] {
        assert_eq!(fault(text), expected, "{text:?}");
    }
}
