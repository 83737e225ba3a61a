//! Holds foldsort and folddiff to another reading of answer listings.
//!
//!     listings every                      prints the listing that the gate sorts
//!     listings sort                       prints a listing from standard input as foldsort is to print it
//!     listings left, listings right       print the two listings that the gate compares
//!     listings diff LEFT RIGHT            prints how two files differ as folddiff is to print it
//!     listings check-sort SEED COUNT WORD..
//!                                         COUNT random listings through the command WORD.., each held to `sort`, and
//!                                         for every fifth a listing without duplicates, in several orders
//!     listings check-diff SEED COUNT DIR WORD..
//!                                         COUNT random pairs, as left.txt and right.txt in the folder DIR, where the
//!                                         command WORD.. is run, each held to `diff`

mod answer;
mod difference;
mod listing;

use answer::Reader;
use listing::{distinct_lines, every_listing, every_pair, random_listing, random_pair, Random};
use std::{
    collections::BTreeMap,
    env, fs,
    io::{self, Read, Write},
    path::Path,
    process::{exit, Command, Stdio},
    thread,
};

fn main() {
    let words: Vec<String> = env::args().skip(1).collect();
    let words: Vec<&str> = words.iter().map(String::as_str).collect();
    let reader = Reader::new();
    let number = |text: &str| text.parse::<u64>().expect("a number");
    match words[..] {
        ["every"] => print(&every_listing(&reader)),
        ["left"] => print(&every_pair(&reader).0),
        ["right"] => print(&every_pair(&reader).1),
        ["sort"] => {
            let mut listing = Vec::new();
            io::stdin().lock().read_to_end(&mut listing).expect("standard input");
            print(&reader.printed(&listing));
        }
        ["diff", left, right] => {
            let read = |name: &str| fs::read(name).expect("a listing");
            print(&difference::printed(&reader, &read(left), &read(right)));
        }
        ["check-sort", seed, count, ref command @ ..] if !command.is_empty() => {
            check_sort(&reader, &mut Random(number(seed)), number(count), command);
        }
        ["check-diff", seed, count, dir, ref command @ ..] if !command.is_empty() => {
            check_diff(&reader, &mut Random(number(seed)), number(count), Path::new(dir), command);
        }
        _ => {
            eprintln!("usage: listings every | sort | left | right | diff LEFT RIGHT | check-sort SEED COUNT WORD..");
            eprintln!("       listings check-diff SEED COUNT DIR WORD..");
            exit(2);
        }
    }
}

fn print(text: &[u8]) {
    io::stdout().lock().write_all(text).expect("standard output");
}

/// How often each refusal, kind or other word came.
type Counts = BTreeMap<String, usize>;

fn told(counts: &Counts) -> String {
    counts.iter().map(|(word, times)| format!("{times} {word}")).collect::<Vec<_>>().join(", ")
}

/// The number of a refusal that stands alone.
fn refusal(text: &[u8]) -> Option<String> {
    let text = std::str::from_utf8(text).ok()?;
    ["14", "15", "17"]
        .iter()
        .find(|number| text == format!("refused\t{number}\n"))
        .map(|number| format!("refused {number}"))
}

fn progress(done: u64, count: u64) {
    if done % 500 == 0 {
        eprintln!("{done} of {count}");
    }
}

fn check_sort(reader: &Reader, random: &mut Random, count: u64, command: &[&str]) {
    let mut refused = Counts::new();
    let (mut lines, mut shuffled) = (0, 0);
    for done in 0..count {
        let listing = random_listing(random, reader);
        let wanted = reader.printed(&listing);
        hold(command, Path::new("."), &listing, &wanted);
        match refusal(&wanted) {
            Some(number) => *refused.entry(number).or_insert(0) += 1,
            None => lines += difference::lines(&wanted).len(),
        }
        if done % 5 == 0 {
            let mut distinct = distinct_lines(random, reader);
            let wanted = reader.printed(&joined(&distinct));
            for _ in 0..3 {
                random.shuffle(&mut distinct);
                hold(command, Path::new("."), &joined(&distinct), &wanted);
                shuffled += 1;
            }
        }
        progress(done + 1, count);
    }
    println!("{count} listings, {lines} lines put in order, {}; {shuffled} shuffles", told(&refused));
}

fn joined(lines: &[String]) -> Vec<u8> {
    lines.iter().flat_map(|line| line.bytes().chain([b'\n'])).collect()
}

fn check_diff(reader: &Reader, random: &mut Random, count: u64, dir: &Path, command: &[&str]) {
    let mut counts = Counts::new();
    for done in 0..count {
        let (left, right) = random_pair(random, reader);
        let wanted = difference::printed(reader, &left, &right);
        fs::write(dir.join("left.txt"), &left).expect("left.txt");
        fs::write(dir.join("right.txt"), &right).expect("right.txt");
        hold(command, dir, b"", &wanted);
        match refusal(&wanted) {
            Some(number) => *counts.entry(number).or_insert(0) += 1,
            None => difference::lines(&wanted).iter().for_each(|line| {
                let word = String::from_utf8_lossy(line).split('\t').nth(1).unwrap_or_default().to_string();
                *counts.entry(word).or_insert(0) += 1;
            }),
        }
        progress(done + 1, count);
    }
    println!("{count} pairs: {}", told(&counts));
}

/// Fails where the command, run in a folder, prints something else for an input.
fn hold(command: &[&str], dir: &Path, input: &[u8], wanted: &[u8]) {
    let mut child = Command::new(command[0])
        .args(&command[1..])
        .current_dir(dir)
        .stdin(Stdio::piped())
        .stdout(Stdio::piped())
        .spawn()
        .expect("the command starts");
    let mut stdin = child.stdin.take().expect("its standard input");
    let text = input.to_vec();
    // it may end before all is read, where the listing is too long
    let writer = thread::spawn(move || drop(stdin.write_all(&text)));
    let output = child.wait_with_output().expect("its output");
    writer.join().expect("all is written");
    if output.status.success() && output.stdout == wanted {
        return;
    }
    println!("standard input:\n{}", String::from_utf8_lossy(input));
    println!("wanted:\n{}", String::from_utf8_lossy(wanted));
    println!("printed, {}:\n{}", output.status, String::from_utf8_lossy(&output.stdout));
    println!("listings: FAILED in {}", dir.display());
    exit(1);
}
