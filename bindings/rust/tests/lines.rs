//! Holds this crate to the programs foldlines and foldtext, on the lines that the repository's gate replays through them.

mod common;

use chanrelout::{
    fold_line, fold_line_by, fold_line_in, fold_line_into, Answer, Builtin, Call, Engine, Reading, Refusal, Type, Value, LONGEST_ANSWER,
};
use common::{printed_by, split, stored};

/// The lines stored for a program, each with what the program prints for it.
fn answered_by(program: &str) -> Vec<(Vec<u8>, Vec<u8>)> {
    let input = stored(program);
    let lines = split(&input);
    let answers = split(&printed_by(program, &input));
    assert_eq!(lines.len(), answers.len());
    assert!(lines.len() > 2_000);
    lines.into_iter().zip(answers).collect()
}

fn answered_lines() -> Vec<(Vec<u8>, Vec<u8>)> {
    answered_by("foldlines")
}

/// As foldlines prints it.
fn printed<T: ToString>(folded: Result<T, Refusal>) -> String {
    match folded {
        Ok(answer) => answer.to_string(),
        Err(Refusal::Misspelled(wrong)) => format!("refused\t{}\t{}", wrong.fault.number(), wrong.place),
        Err(refusal) => format!("refused\t{}", refusal.number()),
    }
}

fn spelled(answer: Answer) -> String {
    match answer.second {
        Some(second) => format!("{}\t{}", answer.first, second),
        None => answer.first.to_string(),
    }
}

/// The call of a line whose builtin and values are spelled rightly.
fn call_of(line: &str) -> Option<Call> {
    let mut fields = line.split('\t');
    let builtin = Builtin::from_name(fields.next()?)?;
    if builtin == Builtin::Bitcast {
        let target: Type = fields.next()?.parse().ok()?;
        let value: Value = fields.next()?.parse().ok()?;
        return fields.next().is_none().then(|| Call::bitcast(target, value));
    }
    let arguments: Vec<Value> = fields.map(str::parse).collect::<Result<_, _>>().ok()?;
    Some(Call::new(builtin, &arguments))
}

#[test]
fn lines_are_answered_as_by_foldlines() {
    for (line, answer) in answered_lines() {
        let ours = printed(fold_line(&line));
        assert_eq!(ours.as_bytes(), answer, "{}", String::from_utf8_lossy(&line));
    }
}

#[test]
fn lines_are_answered_as_by_foldtext() {
    let mut others = 0;
    for (line, answer) in answered_by("foldtext") {
        let ours = printed(fold_line_in(Reading::Text, &line));
        assert_eq!(ours.as_bytes(), answer, "{}", String::from_utf8_lossy(&line));
        assert_eq!(printed(fold_line_by(Reading::Text, Engine::Tables, &line)), ours);
        let crates = printed(fold_line_in(Reading::Crate, &line));
        assert_eq!(printed(fold_line_by(Reading::Crate, Engine::Tables, &line)), crates);
        assert_eq!(crates, printed(fold_line(&line)));
        others += usize::from(crates != ours);
        if let Some(call) = call_of(&String::from_utf8_lossy(&line)) {
            assert_eq!(printed(call.fold_in(Reading::Text).map(spelled)), ours);
        }
    }
    assert!(others > 500);
}

#[test]
fn calls_are_answered_as_by_foldlines() {
    let (mut answered, mut refused) = (0, 0);
    for (line, answer) in answered_lines() {
        let line = String::from_utf8_lossy(&line);
        let call = match call_of(&line) {
            Some(call) if line.len() <= 400 => call,
            _ => continue,
        };
        let folded = call.fold();
        *if folded.is_ok() { &mut answered } else { &mut refused } += 1;
        assert_eq!(printed(folded.map(spelled)).as_bytes(), answer, "{}", line);
    }
    assert!(answered > 5_000 && refused > 500, "{answered} answered, {refused} refused");
}

#[test]
fn memory_past_an_answer_stays() {
    let mut compared = 0;
    for (line, answer) in answered_lines().into_iter().step_by(7) {
        if answer.starts_with(b"refused") {
            let mut out = [0xA5; LONGEST_ANSWER];
            assert!(fold_line_into(&line, &mut out).is_err());
            assert!(out.iter().all(|&byte| byte == 0xA5));
            continue;
        }
        for room in [answer.len() - 1, answer.len(), answer.len() + 9] {
            let mut out = vec![0xA5; room];
            if room < answer.len() {
                assert_eq!(fold_line_into(&line, &mut out), Err(Refusal::NoRoom));
                assert!(out.iter().all(|&byte| byte == 0xA5));
            } else {
                assert_eq!(fold_line_into(&line, &mut out), Ok(&answer[..]));
                assert!(out[answer.len()..].iter().all(|&byte| byte == 0xA5));
            }
            compared += 1;
        }
    }
    assert!(compared > 1_000, "{compared}");
}

#[test]
fn values_are_spelled_and_read_back() {
    for ty in Type::all() {
        let lanes: Vec<u32> = (0..ty.lane_count() as u32).map(|i| i % 2).collect();
        let value = Value::new(ty, &lanes).unwrap();
        assert_eq!(value.to_string().parse(), Ok(value));
        assert_eq!(ty.to_string().parse(), Ok(ty));
        assert!(Value::new(ty, &vec![0; lanes.len() + 1]).is_err());
    }
    for bad in
        ["", "i32", "i32:", "i32:0000000g", "i32:+0000001", "bool:2", "f16:00000", "vec2<f32>:00000000", "vec4f:0"]
    {
        assert!(bad.parse::<Value>().is_err(), "{bad}");
    }
    assert!(Value::new(Type::Scalar(chanrelout::Scalar::F16), &[0x1_0000]).is_err());
}

#[test]
fn halves_come_back() {
    for half in 0..=u16::MAX {
        let back = chanrelout::f32_to_f16(chanrelout::f16_to_f32(half));
        let nan = half & 0x7FFF > 0x7C00;
        assert_eq!(back, if nan { 0x7E00 } else { half });
    }
}
