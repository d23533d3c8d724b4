//! Noise from the sealed seed against the request's formula: every short length, a short map split at every place, a
//! long one at drawn places, and all 4,294,967,296 draws.

use wemsteky_tests::call::Buffer;
use wemsteky_tests::engine;
use wemsteky_tests::noise::{fill, SEEDS};
use wemsteky_tests::random::Random;

/// Both ends of the seeds, the middle, and the seeds whose next ones are the ends.
const SOME_SEEDS: [u32; 7] = [0, 1, 0x7FFF_FFFF, 0x8000_0000, u32::MAX, 634_785_765, 653_637_408];

/// Fills a map in calls that end at these places and at its end, each given the last seed of the one before, and holds
/// the map, its guard values and the last seed against the formula for the whole map.
fn hold(seed: u32, length: usize, ends: &[usize]) {
    let mut map = Buffer::of(length, || -12_345i16);
    let mut expected = map.clone();
    let mut last = seed;
    let mut start = 0;
    for &end in ends.iter().chain([&length]) {
        last = engine::noise(last, &mut map.lend(end)[start..]);
        start = end;
    }
    assert_eq!(last, fill(seed, expected.lend(length)), "last seed: seed {seed}, length {length}, calls to {ends:?}");
    if let Some((place, found, expected)) = map.difference(&expected) {
        panic!("value {place} is {found}, not {expected}: seed {seed}, length {length}, calls to {ends:?}");
    }
}

#[test]
fn every_short_length() {
    for length in 0..300 {
        SOME_SEEDS.iter().for_each(|&seed| hold(seed, length, &[]));
        let mut random = Random::new("noise, every short length", length);
        (0..20).for_each(|_| hold(random.word() as u32, length, &[]));
    }
}

#[test]
fn a_short_map_split_at_every_place() {
    for seed in SOME_SEEDS {
        for length in 0..50 {
            (0..=length).for_each(|place| hold(seed, length, &[place]));
        }
    }
}

#[test]
fn a_long_map_split_at_drawn_places() {
    for trial in 0..200 {
        let mut random = Random::new("noise, drawn places", trial);
        let (seed, length) = (random.word() as u32, random.between(50_000, 200_000));
        hold(seed, length, &[random.below(length + 1)]);
        let count = random.below(20);
        let mut ends: Vec<usize> = (0..count).map(|_| random.below(length + 1)).collect();
        ends.sort_unstable();
        hold(seed, length, &ends);
    }
}

/// Draws all seeds in calls of 65,536 places. The first seed comes back with the last draw and with no earlier call.
#[test]
fn the_seed_comes_back_after_every_other_one() {
    let mut map = vec![0; 65_536];
    let calls = SEEDS / map.len() as u64;
    let first = 20_261_115;
    let mut seed = first;
    for call in 1..=calls {
        seed = engine::noise(seed, &mut map);
        assert_eq!(seed == first, call == calls, "call {call}");
    }
}
