//! The transform pair: vectors of residues, each with its transform and its inverse, then calls that are refused.

use super::Sequence;
use crate::rules::transform_number;
use crate::transform::{inverse, modulus, points, transform};

/// A 1 at place 1, the largest residue there, the largest residue everywhere, and drawn residues.
fn vector(field: usize, number: usize, sequence: &mut Sequence) -> Vec<u64> {
    let m = modulus(field);
    let mut words = vec![0; points(field)];
    match number {
        0 => words[1] = 1,
        1 => words[1] = m - 1,
        2 => words.fill(m - 1),
        _ => words.fill_with(|| sequence.residue(m)),
    }
    words
}

fn line(words: &[u64]) -> String {
    words.iter().map(|word| format!("{word} ")).collect::<String>() + "\n"
}

fn vectors(field: usize) -> String {
    let mut sequence = Sequence(field as u64);
    let mut text = String::new();
    for number in 0..8 {
        let words = vector(field, number, &mut sequence);
        text += &format!("field {field} vector {number}\n");
        text += &[line(&words), line(&transform(field, &words)), line(&inverse(field, &words))].concat();
    }
    text
}

/// Calls that are refused: the field, how many words there are (each 7, but the last) and the last word.
const REFUSED: [(usize, usize, u64); 13] = [
    (0, 0, 0),
    (3, 31, 65_537),
    (6, 64, 1),
    (usize::MAX, 64, 1),
    (4, 0, 0),
    (4, 31, 65_537),
    (4, 33, 1),
    (4, 64, 1),
    (5, 32, 1),
    (5, 63, 1),
    (4, 32, 65_537),
    (4, 32, u64::MAX),
    (5, 64, 4_294_967_297),
];

/// Both routines answer with the number of the rule, and leave the words.
fn refused((field, length, last): (usize, usize, u64)) -> String {
    let mut words = vec![7; length];
    if let Some(word) = words.last_mut() {
        *word = last;
    }
    let number = transform_number(field, &words);
    assert_ne!(number, 0, "field {field}, {length} words");
    format!("refused {number} {number} {}", line(&words))
}

pub fn text() -> String {
    [vectors(4), vectors(5), REFUSED.map(refused).concat()].concat()
}
