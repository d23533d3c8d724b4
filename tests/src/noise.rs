//! Noise from the sealed seed, by the request's formula in numbers of 64 bits, with a remainder and a quotient.

/// How many seeds there are.
pub const SEEDS: u64 = 4_294_967_296;

pub fn next_seed(seed: u32) -> u32 {
    ((1_664_525 * u64::from(seed) + 1_013_904_223) % SEEDS) as u32
}

/// The value of a drawn seed.
pub fn value(seed: u32) -> i16 {
    (u64::from(seed) / 16_777_216) as i16 - 128
}

/// Fills the map in order and returns the last seed.
pub fn fill(seed: u32, map: &mut [i16]) -> u32 {
    map.iter_mut().fold(seed, |seed, place| {
        let next = next_seed(seed);
        *place = value(next);
        next
    })
}

#[cfg(test)]
mod tests {
    use super::*;

    #[test]
    fn the_first_seeds_after_0() {
        let seeds = [0, 0x3C6E_F35F, 0x4750_2932, 0xD1CC_F6E9, 0xAAF9_5334, 0x6252_E503, 0x9F2E_C686];
        seeds.windows(2).for_each(|pair| assert_eq!(next_seed(pair[0]), pair[1]));
    }

    #[test]
    fn the_ends_of_the_values() {
        let seeds = [0, 0x00FF_FFFF, 0x7FFF_FFFF, 0x8000_0000, 0xFF00_0000, u32::MAX];
        assert_eq!(seeds.map(value), [-128, -128, -1, 0, 127, 127]);
    }
}
