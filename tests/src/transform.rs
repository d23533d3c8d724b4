//! The transform pair as its sums: no halving, no lazy words, remainders of 128-bit products.

/// The modulus of F_4 or F_5.
pub fn modulus(field: usize) -> u64 {
    match field {
        4 => 65_537,
        5 => 4_294_967_297,
        _ => panic!("no field {field}"),
    }
}

/// N, the length of a transform.
pub fn points(field: usize) -> usize {
    match field {
        4 => 32,
        5 => 64,
        _ => panic!("no field {field}"),
    }
}

fn times(a: u64, b: u64, m: u64) -> u64 {
    (u128::from(a) * u128::from(b) % u128::from(m)) as u64
}

/// The powers of a base from the power 0 on.
fn powers(base: u64, count: usize, m: u64) -> Vec<u64> {
    std::iter::successors(Some(1), |&power| Some(times(power, base, m))).take(count).collect()
}

/// The inverse of a modulo m by Euclid's algorithm: it needs no prime.
fn inverse_of(a: u64, m: u64) -> u64 {
    let (mut r0, mut r1) = (i128::from(m), i128::from(a));
    let (mut t0, mut t1) = (0i128, 1i128);
    while r1 != 0 {
        let q = r0 / r1;
        (r0, r1) = (r1, r0 - q * r1);
        (t0, t1) = (t1, t0 - q * t1);
    }
    assert_eq!(r0, 1, "{a} has no inverse modulo {m}");
    t0.rem_euclid(i128::from(m)) as u64
}

/// The sum over n of x[n] times the root to the power nk, for every k.
fn sums(words: &[u64], root: u64, m: u64) -> Vec<u64> {
    let places = 0..words.len();
    let powers = powers(root, words.len() * words.len(), m);
    let term = |n: usize, k: usize| times(words[n], powers[n * k], m);
    places.clone().map(|k| places.clone().fold(0, |sum, n| (sum + term(n, k)) % m)).collect()
}

/// The sum over n of x[n] times 2 to the power nk, for every k.
pub fn transform(field: usize, words: &[u64]) -> Vec<u64> {
    sums(words, 2, modulus(field))
}

/// The same with the inverse of 2, times 1/N.
pub fn inverse(field: usize, words: &[u64]) -> Vec<u64> {
    let m = modulus(field);
    let scale = inverse_of(points(field) as u64, m);
    sums(words, inverse_of(2, m), m).into_iter().map(|sum| times(sum, scale, m)).collect()
}

#[cfg(test)]
mod tests {
    use super::*;

    #[test]
    fn scale_factors_are_those_of_the_request() {
        assert_eq!(inverse_of(32, modulus(4)), 63_489);
        assert_eq!(inverse_of(64, modulus(5)), 4_227_858_433);
    }

    #[test]
    fn a_one_at_place_one_has_65536_at_entry_16() {
        let mut words = vec![0; 32];
        words[1] = 1;
        assert_eq!(transform(4, &words)[16], 65_536);
    }
}
