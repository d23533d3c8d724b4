//! What the program `cases` must write, from direct sums and rules.

mod charts;
mod jobs;
mod vectors;

/// A fixed sequence: each number is the one before times 1,103,515,245 plus 12,345, modulo 2 to the power 31.
struct Sequence(u64);

impl Sequence {
    fn next(&mut self) -> u64 {
        self.0 = (self.0 * 1_103_515_245 + 12_345) % 2_147_483_648;
        self.0
    }

    /// A residue from two numbers of the sequence.
    fn residue(&mut self, m: u64) -> u64 {
        let high = self.next();
        (high * 2_147_483_648 + self.next()) % m
    }

    /// Values from −peak to peak, one from each number.
    fn values(&mut self, count: usize, peak: i16) -> Vec<i16> {
        (0..count).map(|_| (self.next() % (2 * peak as u64 + 1)) as i16 - peak).collect()
    }
}

/// Values in rows, with single spaces between.
fn rows(values: &[i64], width: usize) -> String {
    let line = |row: &[i64]| row.iter().map(i64::to_string).collect::<Vec<_>>().join(" ") + "\n";
    values.chunks(width).map(line).collect()
}

/// The whole text.
pub fn text() -> String {
    [vectors::text(), charts::text(), jobs::text()].concat()
}
