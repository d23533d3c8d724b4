//! The transform pair against its defining sums in both fields, and each undoing the other.

use wemsteky_tests::call::Buffer;
use wemsteky_tests::engine;
use wemsteky_tests::random::Random;
use wemsteky_tests::transform::{inverse, modulus, points, transform};

/// What a public routine leaves of some words, guard values around them checked.
fn left_by(routine: fn(usize, &mut [u64]) -> usize, field: usize, words: &[u64]) -> Vec<u64> {
    let mut buffer = Buffer::of(words.len(), || u64::MAX);
    let mut expected = buffer.clone();
    buffer.lend(words.len()).copy_from_slice(words);
    assert_eq!(routine(field, buffer.lend(words.len())), 0, "field {field}, {words:?}");
    expected.lend(words.len()).copy_from_slice(buffer.words());
    assert_eq!(buffer.difference(&expected), None, "guard values, field {field}");
    buffer.words().to_vec()
}

fn hold(field: usize, words: &[u64]) {
    let there = left_by(engine::transform, field, words);
    assert_eq!(there, transform(field, words), "transform in field {field} of {words:?}");
    assert_eq!(left_by(engine::inverse, field, &there), words, "there and back in field {field}");
    let back = left_by(engine::inverse, field, words);
    assert_eq!(back, inverse(field, words), "inverse in field {field} of {words:?}");
    assert_eq!(left_by(engine::transform, field, &back), words, "back and there in field {field}");
}

/// Residues near the ends, near half the field, near the powers of 2, and any.
fn residue(random: &mut Random, field: usize) -> u64 {
    let m = modulus(field);
    match random.below(6) {
        0 => m - 1,
        1 => random.word() % 3,
        2 => m - 1 - random.word() % 3,
        3 => m / 2 - 1 + random.word() % 3,
        4 => ((1 << random.below(33)) + random.word() % 2) % m,
        _ => random.word() % m,
    }
}

#[test]
fn single_residues_at_every_place() {
    for field in [4, 5] {
        let m = modulus(field);
        for place in 0..points(field) {
            for residue in [1, 2, m / 2, m / 2 + 1, m - 2, m - 1] {
                let mut words = vec![0; points(field)];
                words[place] = residue;
                hold(field, &words);
            }
        }
    }
}

#[test]
fn the_same_residue_everywhere_but_at_one_place() {
    for field in [4, 5] {
        let m = modulus(field);
        for (filled, other) in [(m - 1, m - 1), (m - 1, 0), (0, 0), (1, m - 1), (m / 2, m - 1)] {
            for place in 0..points(field) {
                let mut words = vec![filled; points(field)];
                words[place] = other;
                hold(field, &words);
            }
        }
    }
}

#[test]
fn drawn_residues() {
    for trial in 0..1_000 {
        let mut random = Random::new("transforms, drawn residues", trial);
        let field = 4 + trial % 2;
        let extreme = random.once_in(4);
        let m = modulus(field);
        let mut draw = || if extreme { random.pick(&[0, m - 1]) } else { residue(&mut random, field) };
        let words: Vec<u64> = (0..points(field)).map(|_| draw()).collect();
        hold(field, &words);
    }
}
