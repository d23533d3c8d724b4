//! Runs the bench program and holds what it prints to the request's rules.

use crate::bench::{printed, UNREADABLE};
use std::io::{ErrorKind, Write};
use std::process::{Child, Command, Stdio};
use std::time::Duration;

const PROGRAM: &str = concat!(env!("CARGO_MANIFEST_DIR"), "/../crates/bench/out/bench");

/// The three kinds of answer.
#[derive(Clone, Copy, Debug, PartialEq, Eq)]
pub enum Answer {
    Frame,
    Refused(usize),
    Unreadable,
}

/// How often each answer was seen; `refused` by its number.
#[derive(Debug, Default)]
pub struct Seen {
    pub frames: usize,
    pub refused: [usize; 26],
    pub unreadable: usize,
}

impl Seen {
    pub fn count(&mut self, answer: Answer) {
        match answer {
            Answer::Frame => self.frames += 1,
            Answer::Refused(number) => self.refused[number] += 1,
            Answer::Unreadable => self.unreadable += 1,
        }
    }
}

fn start() -> Child {
    let mut command = Command::new(PROGRAM);
    command.stdin(Stdio::piped()).stdout(Stdio::piped()).stderr(Stdio::piped());
    match command.spawn() {
        Ok(child) => child,
        Err(error) if error.kind() == ErrorKind::NotFound => {
            panic!("{PROGRAM} is missing: run `rt run` in crates/bench first")
        }
        Err(error) => panic!("{PROGRAM} does not start: {error}"),
    }
}

/// What the program prints for an input that comes in pieces. It may end before it has read all of a long one.
pub fn run<'a>(pieces: impl Iterator<Item = &'a [u8]>, pause: Duration) -> String {
    let mut child = start();
    let mut stdin = child.stdin.take().expect("standard input is a pipe");
    for piece in pieces {
        match stdin.write_all(piece) {
            Err(error) if error.kind() == ErrorKind::BrokenPipe => break,
            written => written.expect("the pipe takes the input"),
        }
        std::thread::sleep(pause);
    }
    drop(stdin);
    let output = child.wait_with_output().expect("the program ends");
    assert!(output.status.success() && output.stderr.is_empty(), "the program fails: {output:?}");
    String::from_utf8(output.stdout).expect("the program prints digits and letters")
}

/// The start of an input, for a message.
fn name(input: &[u8]) -> String {
    let start = &input[..input.len().min(4_000)];
    format!("an input of {} bytes that begins with \"{}\"", input.len(), start.escape_ascii())
}

/// The kind of what was printed, which must be of one of the three.
fn kind(text: &str) -> Answer {
    let lines = || text.strip_suffix('\n').expect("the last line is ended").split('\n');
    let is_number = |word: &str| {
        let digits = word.strip_prefix('-').unwrap_or(word);
        !digits.is_empty() && digits.bytes().all(|byte| byte.is_ascii_digit())
    };
    if text == UNREADABLE {
        Answer::Unreadable
    } else if let Some(number) = text.strip_prefix("refused ") {
        let number = number.trim_end().parse().expect("a number comes after the word refused");
        assert!(matches!(number, 1..=9 | 14..=16 | 24 | 25), "no input is refused by {number}");
        assert_eq!(text, format!("refused {number}\n"));
        Answer::Refused(number)
    } else {
        assert!(text.starts_with("tiles ") && lines().count() > 1, "no kind of answer: {text}");
        assert!(lines().skip(1).all(|line| line.split(' ').all(is_number)), "no rows of numbers: {text}");
        Answer::Frame
    }
}

/// Runs the program on an input and holds every byte that it prints to the rules. Returns the kind of the answer.
pub fn hold(input: &[u8]) -> Answer {
    let (found, expected) = (run(std::iter::once(input), Duration::ZERO), printed(input));
    assert!(found == expected, "{found:?} is printed instead of {expected:?} for {}", name(input));
    kind(&found)
}

/// Holds the program and the rules to an answer that is known.
pub fn hold_known(input: impl AsRef<[u8]>, answer: &str) {
    assert_eq!(printed(input.as_ref()), answer, "the rules on {}", name(input.as_ref()));
    hold(input.as_ref());
}
