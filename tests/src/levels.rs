//! Levels for the screen, by search: of the whole numbers around the exact quotient the nearest one, of two that are
//! equally near the one further from zero, then the clamp.

use std::cmp::Reverse;

pub const SHIFTS: std::ops::RangeInclusive<usize> = 0..=31;
pub const BOUNDS: std::ops::RangeInclusive<usize> = 1..=32_767;

/// The level of one output.
pub fn level(shift: usize, bound: usize, output: i32) -> i16 {
    let (value, divisor, bound) = (i64::from(output), 1i64 << shift, bound as i64);
    let below = value.div_euclid(divisor);
    let around = [below, below + 1].into_iter();
    let nearest = around.max_by_key(|&q| (Reverse((value - q * divisor).abs()), q.abs())).expect("there are two");
    nearest.clamp(-bound, bound) as i16
}

/// 20 where the shift, the bound or the length is refused, else 0.
pub fn number(shift: usize, bound: usize, outputs: usize, levels: usize) -> usize {
    let accepted = SHIFTS.contains(&shift) && BOUNDS.contains(&bound) && outputs == levels;
    if accepted {
        0
    } else {
        20
    }
}

#[cfg(test)]
mod tests {
    use super::*;

    #[test]
    fn the_example_of_the_request() {
        assert_eq!([-3, 3].map(|output| level(1, 2, output)), [-2, 2]);
    }

    #[test]
    fn halves_go_away_from_zero() {
        assert_eq!([-5, -4, -3, -1, 1, 3, 4, 5].map(|output| level(1, 100, output)), [-3, -2, -2, -1, 1, 2, 2, 3]);
        assert_eq!([i32::MIN, i32::MAX].map(|output| level(31, 100, output)), [-1, 1]);
    }
}
