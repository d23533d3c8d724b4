//! Inputs of the bench program: runs that it accepts, written with any separators, and inputs that are spoiled.

use crate::bench::{small, FIGURES, LONGEST};
use crate::call::Call;
use crate::draw;
use crate::engine::Engine;
use crate::random::Random;

/// A run of a kind that the program accepts.
pub fn call(random: &mut Random, kind: usize) -> Call {
    loop {
        let layer = draw::any_layer(random, kind, 4, 5, 40);
        if small(&layer) && (layer.below, layer.beside) == (0, 0) {
            return draw::call(random, Engine::Tiles, layer);
        }
    }
}

/// The words of an input: the header, which has no place for rows and columns that are added, the map, the kernel.
pub fn words(call: &Call) -> Vec<String> {
    let values = call.map.iter().chain(&call.kernel).map(i16::to_string);
    call.layer.numbers()[..FIGURES].iter().map(usize::to_string).chain(values).collect()
}

/// Words with single spaces between.
pub fn joined(words: &[String]) -> Vec<u8> {
    words.join(" ").into_bytes()
}

/// The text of a run: single spaces, or any separators between, before and after, and zeros before the digits. It is
/// not above 16 KiB.
pub fn text(random: &mut Random, call: &Call) -> Vec<u8> {
    let plain = joined(&words(call));
    if random.once_in(3) {
        return plain;
    }
    let mut text = separator(random).repeat(random.below(3)).into_bytes();
    let zeros = random.once_in(2);
    for word in words(call) {
        let word = if zeros { zeroed(random, &word) } else { word };
        text.extend(word.bytes().chain(separator(random).bytes()));
    }
    let ended = random.once_in(2);
    while ended && text.last().is_some_and(|byte| !byte.is_ascii_digit()) {
        text.pop();
    }
    if text.len() <= LONGEST {
        text
    } else {
        plain
    }
}

fn separator(random: &mut Random) -> &'static str {
    random.pick(&[" ", " ", " ", "\n", "  ", " \n", "\n ", "\n\n", "\n \n"])
}

/// The same number, now and then with zeros before its digits.
fn zeroed(random: &mut Random, word: &str) -> String {
    if !random.once_in(8) {
        return word.to_string();
    }
    let zeros = "0".repeat(random.pick(&[1, 1, 2, 5, 30]));
    match word.strip_prefix('-') {
        Some(digits) => format!("-{zeros}{digits}"),
        None => format!("{zeros}{word}"),
    }
}

/// Words that are no number, that are one at the end of a range, or that are one when cut to 16, 32 or 64 bits.
const ODD_WORDS: &[&str] = &[
    "-0",
    "00",
    "-",
    "--1",
    "+1",
    "1-2",
    "1-",
    "-1",
    "-1-",
    "- 1",
    "0x1",
    "1.0",
    "1e0",
    "1,2",
    "1_0",
    "/",
    ":",
    "32767",
    "32768",
    "-32767",
    "-32768",
    "-32769",
    "65535",
    "65536",
    "65537",
    "-65535",
    "131072",
    "4294967296",
    "4294967297",
    "-4294967295",
    "9223372036854775808",
    "-9223372036854775807",
    "18446744073709551616",
    "18446744073709551617",
    "340282366920938463463374607431768211457",
    "\u{660}",
];

/// Bytes that are likely to be mistaken for others.
const ODD_BYTES: &[u8] = b"\0\t\x0b\x0c\r\x1f!+,-./0123456789:;x\x7f\x80\xa0\xb0\xff\n\n  ";

/// An input, changed in one way.
pub fn spoiled(random: &mut Random, input: &[u8]) -> Vec<u8> {
    match random.below(8) {
        0 => input[..random.below(input.len() + 1)].to_vec(),
        1 => [input, random.pick(&[&b""[..], b" ", b"\n"]), input].concat(),
        2..=4 => with_spoiled_bytes(random, input),
        5 => padded(random, input),
        _ => with_other_words(random, input),
    }
}

/// One to three bytes replaced, put in or left out.
fn with_spoiled_bytes(random: &mut Random, input: &[u8]) -> Vec<u8> {
    let mut bytes = input.to_vec();
    for _ in 0..random.between(1, 3) {
        let byte = if random.once_in(2) { random.pick(ODD_BYTES) } else { random.word() as u8 };
        let place = random.below(bytes.len() + 1);
        let left_out = place..(place + random.below(2)).min(bytes.len());
        let put_in = if random.once_in(4) { None } else { Some(byte) };
        bytes.splice(left_out, put_in);
    }
    bytes
}

/// Spaces before or after, up to about 16 KiB.
fn padded(random: &mut Random, input: &[u8]) -> Vec<u8> {
    let length = (LONGEST + random.below(5)).saturating_sub(2 + input.len());
    let spaces = vec![b' '; length];
    if random.once_in(2) {
        [input, &spaces].concat()
    } else {
        [&spaces, input].concat()
    }
}

/// Two words in each other's place, or one left out, said twice, moved by 1 or replaced by an odd one. Half of them are
/// of the header. An input without words gets one.
fn with_other_words(random: &mut Random, input: &[u8]) -> Vec<u8> {
    let text = String::from_utf8_lossy(input);
    let mut words: Vec<String> = text.split([' ', '\n']).filter(|word| !word.is_empty()).map(String::from).collect();
    if words.is_empty() {
        words.push("0".to_string());
    }
    let most = if random.once_in(2) { words.len().min(14) } else { words.len() };
    let (place, other) = (random.below(most), random.below(words.len()));
    match random.below(6) {
        0 => words.swap(place, other),
        1 => drop(words.remove(place)),
        2 => words.insert(other, words[place].clone()),
        3 => {
            let number: i128 = words[place].parse().unwrap_or(0);
            words[place] = (number + random.pick(&[-1, 1])).to_string();
        }
        _ => words[place] = random.pick(ODD_WORDS).to_string(),
    }
    joined(&words)
}
