//! The direct sums of CONV and TCONV from the request's formulas: no transform and no tile.

use crate::layer::{Layer, CONV};

/// The places of the map and of the K by K square, along one direction, that meet in a place of the full output. CONV:
/// map eS + a − P with weight a. TCONV: map e with weight i + P − eS. What lies outside the map or the square is 0 and
/// left out.
fn meetings(layer: &Layer, place: usize, length: usize) -> Vec<(usize, usize)> {
    let inside = |index: i64, length: usize| (0..length as i64).contains(&index).then_some(index as usize);
    let [place, stride, padding] = [place, layer.stride, layer.padding].map(|number| number as i64);
    if layer.kind == CONV {
        (0..layer.side).filter_map(|a| Some((inside(place * stride + a as i64 - padding, length)?, a))).collect()
    } else {
        (0..length).filter_map(|e| Some((e, inside(place + padding - e as i64 * stride, layer.side)?))).collect()
    }
}

/// The sum at an output of a channel, given what meets in its row and in its column.
fn sum_at<V: Copy + Into<i64>>(
    layer: &Layer,
    (map, kernel): (&[V], &[i16]),
    channel: usize,
    down: &[(usize, usize)],
    across: &[(usize, usize)],
) -> i64 {
    let mut sum = 0;
    for input in 0..layer.inputs {
        let plane = &kernel[layer.plane(channel, input)..][..layer.side * layer.side];
        for &(row, a) in down {
            let line = &map[(input * layer.height + row) * layer.width..][..layer.width];
            for &(column, b) in across {
                sum += line[column].into() * i64::from(plane[a * layer.side + b]);
            }
        }
    }
    sum
}

/// Every output that the crop keeps, channel by channel, row by row. The map may be the outputs of another layer.
pub fn direct_sums<V: Copy + Into<i64>>(layer: &Layer, map: &[V], kernel: &[i16]) -> Vec<i64> {
    let rows = layer.top..layer.top + layer.rows;
    let columns = layer.left..layer.left + layer.columns;
    let down: Vec<_> = rows.map(|row| meetings(layer, row, layer.height)).collect();
    let across: Vec<_> = columns.map(|column| meetings(layer, column, layer.width)).collect();
    let mut sums = Vec::with_capacity(layer.outputs * layer.rows * layer.columns);
    for channel in 0..layer.outputs {
        for row in &down {
            sums.extend(across.iter().map(|column| sum_at(layer, (map, kernel), channel, row, column)));
        }
    }
    sums
}

#[cfg(test)]
mod tests {
    use super::*;
    use crate::draw;
    use crate::engine::Engine;
    use crate::random::Random;

    /// An entry of a stack of planes, or 0 outside its plane.
    fn entry(words: &[i16], (height, width): (usize, usize), plane: usize, row: i64, column: i64) -> i64 {
        if (0..height as i64).contains(&row) && (0..width as i64).contains(&column) {
            i64::from(words[(plane * height + row as usize) * width + column as usize])
        } else {
            0
        }
    }

    /// The request's sum at a place of the full output, over every index that it names.
    fn full_sum(layer: &Layer, map: &[i16], kernel: &[i16], channel: usize, row: i64, column: i64) -> i64 {
        let (shape, square) = ((layer.height, layer.width), (layer.side, layer.side));
        let (stride, padding) = (layer.stride as i64, layer.padding as i64);
        let mut sum = 0;
        for c in 0..layer.inputs {
            if layer.kind == CONV {
                for (a, b) in places(square) {
                    let value = entry(map, shape, c, row * stride + a - padding, column * stride + b - padding);
                    sum += entry(kernel, square, channel * layer.inputs + c, a, b) * value;
                }
            } else {
                for (e, f) in places(shape) {
                    let (a, b) = (row + padding - e * stride, column + padding - f * stride);
                    sum += entry(map, shape, c, e, f) * entry(kernel, square, c * layer.outputs + channel, a, b);
                }
            }
        }
        sum
    }

    fn places((height, width): (usize, usize)) -> impl Iterator<Item = (i64, i64)> {
        (0..height as i64).flat_map(move |row| (0..width as i64).map(move |column| (row, column)))
    }

    #[test]
    fn sums_are_those_over_every_index() {
        for trial in 0..200 {
            let mut random = Random::new("direct sums", trial);
            let layer = draw::any_layer(&mut random, trial % 2, 4, 3, 12);
            let call = draw::call(&mut random, Engine::Tiles, layer);
            let mut sums = direct_sums(&layer, &call.map, &call.kernel).into_iter();
            for channel in 0..layer.outputs {
                for (row, column) in places((layer.rows, layer.columns)) {
                    let (row, column) = (row + layer.top as i64, column + layer.left as i64);
                    let sum = full_sum(&layer, &call.map, &call.kernel, channel, row, column);
                    assert_eq!(sums.next(), Some(sum), "channel {channel}, row {row}, column {column} of {layer:?}");
                }
            }
            assert_eq!(sums.next(), None, "{layer:?}");
        }
    }
}
