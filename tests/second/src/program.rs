//! The session program, compared with the plain list line by line.

use crate::days::Changes;
use crate::plain::Plain;
use crate::random::{count, Random, Size};
use crate::store_bytes::fits;
use crate::store_calls::Call;
use std::io::{Read, Write};
use std::process::{Command, Stdio};

const SEEDS: u64 = 300;

/// Plays sessions on a program; true if it printed what the plain list says.
pub fn play(path: &str) -> bool {
    assert_eq!(answers(PRINTED), PRINTED_ANSWERS, "document 01's session");
    let mut lines = 0;
    let fixed = [
        b"".to_vec(),
        PRINTED.to_vec(),
        b"f".to_vec(),
        b"\n\n".to_vec(),
    ];
    let drawn = (0..SEEDS).map(session);
    for (k, input) in fixed.into_iter().chain(drawn).enumerate() {
        let expected = answers(&input);
        let printed = run(path, &input);
        if printed != expected {
            println!("DIFFERENCE, session {k} of {path}:");
            show_first(&input, &printed, &expected);
            return false;
        }
        lines += expected.lines().count();
    }
    println!("session program: {lines} lines compared, 0 differences");
    true
}

/// Prints what the program must print for this input.
pub fn print_answers() -> bool {
    let mut input = Vec::new();
    std::io::stdin().read_to_end(&mut input).expect("an input");
    print!("{}", answers(&input));
    true
}

/// Document 01's own session.
const PRINTED: &[u8] =
    b"n 1 2\na 122\nf\ns 0 123\nf\na 5\nr 2\nw 124\nw 129\ns 1 4294967295\ns 0 100000\n";

const PRINTED_ANSWERS: &str = "ok\nok\n1\nok\n0\nok\n128\n2\nrefused 8\nrefused 3\nrefused 12\n";

fn run(path: &str, input: &[u8]) -> String {
    let mut child = Command::new(path)
        .stdin(Stdio::piped())
        .stdout(Stdio::piped())
        .spawn()
        .unwrap_or_else(|error| panic!("{path}: {error}"));
    let mut stdin = child.stdin.take().expect("it is piped");
    let input = input.to_vec();
    // Written beside the reading: neither side may wait for the other.
    let writer = std::thread::spawn(move || stdin.write_all(&input));
    let output = child.wait_with_output().expect("the program ends");
    // A program that does not read all of it shows that in what it printed.
    let _ = writer.join().expect("no panic");
    String::from_utf8_lossy(&output.stdout).into_owned()
}

fn show_first(input: &[u8], printed: &str, expected: &str) {
    let input = String::from_utf8_lossy(input);
    let mut lines = input.split('\n');
    let (mut printed, mut expected) = (printed.lines(), expected.lines());
    loop {
        let (line, got, wanted) = (lines.next(), printed.next(), expected.next());
        println!("  {line:?}: {got:?}, expected {wanted:?}");
        if got != wanted || line.is_none() {
            return;
        }
    }
}

/// What the program must print for an input.
fn answers(input: &[u8]) -> String {
    let mut plain = None;
    let mut printed = String::new();
    let whole = input.strip_suffix(b"\n").unwrap_or(input);
    if input.is_empty() {
        return printed;
    }
    for line in whole.split(|&byte| byte == b'\n') {
        printed += &answer(&mut plain, line);
        printed.push('\n');
    }
    printed
}

/// The answer to one line; before the first fresh there is no plain list.
fn answer(plain: &mut Option<Plain>, line: &[u8]) -> String {
    let Some(call) = parsed(line) else {
        return "line?".into();
    };
    if let Call::Fresh(pages, cells) = call {
        // The program lends a buffer that is right for any good P and C.
        let bytes = crate::store_bytes::length(pages as usize, cells as usize);
        if !fits(bytes, pages.into(), cells.into()) {
            return "refused 9".into();
        }
        *plain = Some(Plain::fresh(pages.into(), cells.into()));
        return "ok".into();
    }
    let word = match plain {
        Some(plain) => call.by_plain(plain, &mut []).expect("no fresh"),
        None => -10,
    };
    match call {
        _ if word < 0 => format!("refused {}", -word),
        Call::Append(_) | Call::Set(..) => "ok".into(),
        _ => word.to_string(),
    }
}

/// A line's call, if the line is one: a letter, and each number behind one
/// space.
fn parsed(line: &[u8]) -> Option<Call> {
    if line.len() > 40 {
        return None;
    }
    let mut words = line.split(|&byte| byte == b' ');
    let letter = words.next()?;
    let numbers = words.map(number).collect::<Option<Vec<u32>>>()?;
    Some(match (letter, &numbers[..]) {
        (b"n", &[pages, cells]) => Call::Fresh(pages, cells),
        (b"a", &[count]) => Call::Append(count),
        (b"s", &[hour, count]) => Call::Set(hour, count),
        (b"g", &[hour]) => Call::Count(hour),
        (b"r", &[hour]) => Call::Reading(hour),
        (b"w", &[figure]) => Call::Reach(figure),
        (b"d", &[day]) => Call::Day(day, Changes::NONE),
        (b"f", &[]) => Call::Free,
        _ => return None,
    })
}

/// One or more decimal digits, at most 4,294,967,295.
fn number(word: &[u8]) -> Option<u32> {
    if word.is_empty() {
        return None;
    }
    let mut value = 0u64;
    for digit in word {
        if !digit.is_ascii_digit() {
            return None;
        }
        value = 10 * value + u64::from(digit - b'0');
        if value > u64::from(u32::MAX) {
            return None;
        }
    }
    Some(value as u32)
}

/// An input of good lines, bad ones and some that are nearly good.
fn session(seed: u64) -> Vec<u8> {
    let mut random = Random::new(7_000_000 + seed);
    let size = random.pick(&Size::ALL);
    let mut input = Vec::new();
    for _ in 0..random.between(1, 200) {
        let mut line = good_line(&mut random, size).into_bytes();
        if random.one_in(6) {
            spoil(&mut line, &mut random);
        }
        input.extend(line);
        input.push(b'\n');
    }
    if random.one_in(2) {
        input.pop();
    }
    input
}

/// The largest sizes, and sizes above them, some of which would be small again
/// in two bytes.
const LARGE: [&str; 6] = [
    "n 1024 1800",
    "n 1025 1800",
    "n 1024 1801",
    "n 65537 9",
    "n 1 65545",
    "n 4294967295 4294967295",
];

/// An hour of the first two pages, or one whose low bits alone would be one.
fn hour(random: &mut Random) -> u64 {
    let far: u64 = random.pick(&[1 << 16, 1 << 31]);
    random.below(90) + if random.one_in(12) { far } else { 0 }
}

fn good_line(random: &mut Random, size: Size) -> String {
    let hour = hour(random);
    let value = count(random, size);
    match random.below(20) {
        0 if random.one_in(3) => format!("n {} {}", random.below(4), random.below(12)),
        0 => random.pick(&LARGE).into(),
        1..=8 => format!("a {value}"),
        9..=11 => format!("s {hour} {value}"),
        12 => format!("g {hour}"),
        13 | 14 => format!("r {hour}"),
        15 | 16 => format!("w {value}"),
        17 => format!("d {}", random.pick(&[0, 1, 2, 3, 178_956_970])),
        _ => "f".into(),
    }
}

/// Makes a line bad, or nearly so.
fn spoil(line: &mut Vec<u8>, random: &mut Random) {
    let at = random.below(line.len() as u64 + 1) as usize;
    match random.below(9) {
        0 => line.insert(at, b' '),
        1 => line.insert(at, random.pick(b"0123456789abcdfgnrsw-+.\r\t\0\xFF")),
        2 => line.truncate(at),
        3 => line.push(b'\r'),
        4 => line.extend(b" 1"),
        5 => line.extend(b"4294967295"),
        6 => *line = long_line(random.between(38, 43) as usize),
        7 => *line = long_line(random.between(60, 300) as usize),
        _ => line.clear(),
    }
}

/// A good call in so many bytes, by leading zeros.
fn long_line(length: usize) -> Vec<u8> {
    format!("g {:0>1$}", 1, length - 2).into_bytes()
}
