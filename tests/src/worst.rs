//! The map to show for a range refusal, from the request's words: windows are tried one by one in output order, and the
//! map is 0 everywhere but in the window of the output that it is made for.

use crate::call::Call;
use crate::engine::Engine;
use crate::layer::{Layer, CONV};
use crate::rules::{first_broken_of, load, plan_number};

/// Whether every row, or column, of a window is one of the map's, of which there are `length`.
fn lies_inside(layer: &Layer, place: usize, length: usize) -> bool {
    let first = (place * layer.stride) as i64 - layer.padding as i64;
    (first..first + layer.side as i64).all(|row| (0..length as i64).contains(&row))
}

/// The row and the column, in the crop, of the first output in output order whose whole window lies inside the map.
pub fn first_whole(layer: &Layer) -> Option<(usize, usize)> {
    (0..layer.rows).flat_map(|row| (0..layer.columns).map(move |column| (row, column))).find(|&(row, column)| {
        lies_inside(layer, layer.top + row, layer.height) && lies_inside(layer, layer.left + column, layer.width)
    })
}

/// The first output channel with the greatest load, and that load.
pub fn greatest_load(call: &Call) -> (usize, u128) {
    let loads: Vec<u128> = (0..call.layer.outputs).map(|channel| load(call, channel)).collect();
    let most = *loads.iter().max().unwrap();
    (loads.iter().position(|&load| load == most).unwrap(), most)
}

/// What `worst_map` returns, given a map of the call's length. The call's output, scratch and map values count for nothing.
pub fn number(call: &Call) -> usize {
    let number = plan_number(Engine::Tiles, &call.layer);
    if number != 0 {
        return number;
    }
    let number = first_broken_of(&[10, 11, 14, 24], call);
    if number != 0 || call.layer.kind == CONV && first_whole(&call.layer).is_some() {
        number
    } else {
        29
    }
}

/// The map of a layer that has such a window, and the flat place of the output that it is made for.
pub fn worst_map(call: &Call) -> (Vec<i16>, usize) {
    let layer = &call.layer;
    let (channel, (row, column)) = (greatest_load(call).0, first_whole(layer).unwrap());
    let (down, across) = (layer.top + row, layer.left + column);
    let peak = layer.peak as i16;
    let mut map = vec![0; layer.map_length() as usize];
    for input in 0..layer.inputs {
        for (place, weight) in call.kernel[layer.plane(channel, input)..][..layer.side * layer.side].iter().enumerate()
        {
            let i = down * layer.stride + place / layer.side - layer.padding;
            let j = across * layer.stride + place % layer.side - layer.padding;
            map[(input * layer.height + i) * layer.width + j] = peak * weight.signum();
        }
    }
    (map, (channel * layer.rows + row) * layer.columns + column)
}

#[cfg(test)]
mod tests {
    use super::*;

    /// Two map channels; P 1 and S 2 move the window to row 1, column 1, and the crop starts at its row.
    #[test]
    fn window_moved_by_padding_stride_and_crop() {
        let layer = Layer::of([CONV, 4, 2, 1, 3, 3, 2, 2, 1, 9, 1, 0, 1, 2]);
        let call = Call { layer, kernel: vec![1, 2, 3, -4, -1, 0, 0, 1], ..Call::default() };
        let expected = vec![0, 0, 0, 0, 9, 9, 0, 9, -9, 0, 0, 0, 0, -9, 0, 0, 0, 9];
        assert_eq!((first_whole(&layer), greatest_load(&call)), (Some((0, 1)), (0, 108)));
        assert_eq!(worst_map(&call), (expected, 1));
    }

    #[test]
    fn no_whole_window() {
        for (height, top, rows) in [(1, 0, 2), (2, 0, 1), (2, 2, 1)] {
            assert_eq!(first_whole(&Layer::of([CONV, 4, 1, 1, height, 3, 2, 1, 1, 9, top, 0, rows, 4])), None);
        }
    }
}
