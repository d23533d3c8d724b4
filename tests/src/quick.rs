//! The direct sums of CONV and TCONV written for speed, to compare the engine's times with. Every inner loop runs over
//! values side by side, and the compiler makes it work on several at a time.

use crate::layer::{Layer, CONV};

/// The map with zeros around it, so that no place of a sum lies outside. In CONV each row is split into S lines, the
/// values S apart, so that the values that one weight meets in a row stand side by side.
struct Padded<'a> {
    values: &'a [i16],
    rows: usize,
    line: usize,
    lines: usize,
}

/// More values than a line's end lies from the end of its last block.
const SLACK: usize = 32;

impl Padded<'_> {
    fn of<'a>(layer: &Layer, map: &[i16], work: &'a mut Vec<i16>) -> Padded<'a> {
        let (edge, lines) = if layer.kind == CONV { (layer.padding, layer.stride) } else { (edge(layer), 1) };
        let rows = layer.height + 2 * edge;
        let line = (layer.width + 2 * edge).div_ceil(lines);
        work.clear();
        work.resize(layer.inputs * rows * lines * line + SLACK, 0);
        for (number, row) in map.chunks(layer.width).enumerate() {
            let (channel, height) = (number / layer.height, number % layer.height);
            let place = (channel * rows + height + edge) * lines * line;
            split(row, &mut work[place..][..lines * line], edge, lines);
        }
        Padded { values: work, rows, line, lines }
    }

    /// How far a row and a column of a channel lie from the first value.
    fn place(&self, channel: usize, row: usize, column: usize) -> usize {
        ((channel * self.rows + row) * self.lines + column % self.lines) * self.line + column / self.lines
    }
}

/// Puts a row, after so many zeros, into lines that take turns.
fn split(row: &[i16], target: &mut [i16], zeros: usize, lines: usize) {
    if lines == 1 {
        target[zeros..zeros + row.len()].copy_from_slice(row);
        return;
    }
    let line = target.len() / lines;
    for first in 0..lines.min(row.len()) {
        let column = zeros + first;
        let words = &mut target[column % lines * line + column / lines..];
        for (word, &value) in words.iter_mut().zip(row[first..].iter().step_by(lines)) {
            *word = value;
        }
    }
}

/// How many map values before a place of TCONV's output its sum may reach, and how many after the map's last the sums of the
/// added places.
fn edge(layer: &Layer) -> usize {
    (layer.side - 1 + layer.below.max(layer.beside)) / layer.stride
}

/// Outputs so far apart meet the same weights: in TCONV those whose place plus P leaves the same remainder by S.
fn apart(layer: &Layer) -> usize {
    if layer.kind == CONV {
        1
    } else {
        layer.stride
    }
}

/// Along one direction, the weights that outputs of a remainder meet, each with the place of the padded map's value,
/// counted from the output's first.
fn met(layer: &Layer, remainder: usize) -> Vec<(usize, usize)> {
    if layer.kind == CONV {
        (0..layer.side).map(|weight| (weight, weight)).collect()
    } else {
        let weights = (remainder..layer.side).step_by(layer.stride);
        weights.enumerate().map(|(number, weight)| (weight, edge(layer) - number)).collect()
    }
}

/// Along one direction, the first place of the padded map for a place of the full output.
fn first_met(layer: &Layer, place: usize) -> usize {
    if layer.kind == CONV {
        place * layer.stride
    } else {
        (place + layer.padding) / layer.stride
    }
}

/// A weight, and how far the first value that it meets lies from the first one of all.
type Term = (i16, usize);

fn terms(layer: &Layer, kernel: &[i16], padded: &Padded, channel: usize, remainders: (usize, usize)) -> Vec<Term> {
    let (down, across) = (met(layer, remainders.0), met(layer, remainders.1));
    let mut terms = Vec::with_capacity(layer.inputs * down.len() * across.len());
    for input in 0..layer.inputs {
        let plane = layer.plane(channel, input);
        for &(a, row) in &down {
            let weights = &kernel[plane + a * layer.side..][..layer.side];
            terms.extend(across.iter().map(|&(b, column)| (weights[b], padded.place(input, row, column))));
        }
    }
    terms
}

/// The sums of N outputs side by side. Each fits 32 bits, and so does each part of it, where the load is within a
/// limit of the request.
fn block<const N: usize>(terms: &[Term], values: &[i16]) -> [i32; N] {
    let mut sums = [0i32; N];
    for &(weight, place) in terms {
        for (sum, &value) in sums.iter_mut().zip(&values[place..place + N]) {
            *sum = sum.wrapping_add(i32::from(value).wrapping_mul(i32::from(weight)));
        }
    }
    sums
}

/// Writes the words of a line that stand so far apart, 32, 16 or 8 sums at a time.
fn write_line(terms: &[Term], values: &[i16], line: &mut [i32], apart: usize) {
    let count = line.len().div_ceil(apart);
    let mut done = 0;
    while done < count {
        let (rest, target) = (&values[done..], &mut line[done * apart..]);
        done += match count - done {
            0..=8 => store(block::<8>(terms, rest), target, apart),
            9..=24 => store(block::<16>(terms, rest), target, apart),
            _ => store(block::<32>(terms, rest), target, apart),
        };
    }
}

/// Stores as many sums as the line has room for. Returns how many there are.
fn store<const N: usize>(sums: [i32; N], line: &mut [i32], apart: usize) -> usize {
    for (word, sum) in line.iter_mut().step_by(apart).zip(sums) {
        *word = sum;
    }
    N
}

/// Along one direction, the first output kept, counted from the crop's first, whose place plus P leaves a remainder.
fn first_kept(layer: &Layer, crop: usize, remainder: usize) -> usize {
    let apart = apart(layer);
    (remainder + apart - (crop + layer.padding) % apart) % apart
}

/// Writes every output that the crop keeps, channel by channel, row by row. The work buffer may hold anything; one that
/// is kept from call to call need not grow again.
pub fn quick_sums(layer: &Layer, map: &[i16], kernel: &[i16], output: &mut [i32], work: &mut Vec<i16>) {
    let (padded, apart) = (Padded::of(layer, map, work), apart(layer));
    for (channel, frame) in output.chunks_mut(layer.rows * layer.columns).enumerate() {
        for (down, across) in (0..apart).flat_map(|down| (0..apart).map(move |across| (down, across))) {
            let terms = terms(layer, kernel, &padded, channel, (down, across));
            let column = first_kept(layer, layer.left, across).min(layer.columns);
            for row in (first_kept(layer, layer.top, down)..layer.rows).step_by(apart) {
                let (first_row, first_column) =
                    (first_met(layer, layer.top + row), first_met(layer, layer.left + column));
                let values = &padded.values[padded.place(0, first_row, first_column)..];
                write_line(&terms, values, &mut frame[row * layer.columns..][column..layer.columns], apart);
            }
        }
    }
}

#[cfg(test)]
mod tests {
    use super::*;
    use crate::direct::direct_sums;
    use crate::draw;
    use crate::engine::Engine;
    use crate::random::Random;

    #[test]
    fn quick_sums_are_the_direct_sums() {
        let mut work = vec![7; 100];
        for trial in 0..2_000 {
            let mut random = Random::new("quick sums", trial);
            let layer = draw::any_layer(&mut random, trial % 2, 4 + trial / 2 % 2, 3, 70);
            let call = draw::call(&mut random, Engine::Tiles, layer);
            let mut output = vec![0x5555_5555; call.output_length];
            quick_sums(&layer, &call.map, &call.kernel, &mut output, &mut work);
            let sums = direct_sums(&layer, &call.map, &call.kernel);
            assert!(output.iter().map(|&sum| i64::from(sum)).eq(sums), "{layer:?}");
        }
    }
}
