//! The weights that reach an output channel, in the groups that its load is taken over: those that one output can meet.

use crate::layer::{Layer, CONV};
use std::collections::BTreeMap;

/// The places of each group's weights among those that reach an output channel, map channel after map channel. CONV: one
/// group of all. TCONV: a group for each two remainders of row and column by the stride that some weight leaves.
pub fn groups(layer: &Layer) -> Vec<Vec<usize>> {
    let step = match layer.kind {
        CONV => 1,
        _ => layer.stride,
    };
    let mut groups: BTreeMap<(usize, usize), Vec<usize>> = BTreeMap::new();
    for place in 0..layer.inputs * layer.side * layer.side {
        let (row, column) = (place / layer.side % layer.side, place % layer.side);
        groups.entry((row % step, column % step)).or_default().push(place);
    }
    groups.into_values().collect()
}

/// The weights that reach an output channel, map channel after map channel.
pub fn channel_weights(layer: &Layer, kernel: &[i16], channel: usize) -> Vec<i16> {
    let square = layer.side * layer.side;
    (0..layer.inputs).flat_map(|input| &kernel[layer.plane(channel, input)..][..square]).copied().collect()
}

/// Puts weights into the places of a group of an output channel.
pub fn set_group(layer: &Layer, kernel: &mut [i16], channel: usize, group: &[usize], weights: &[i16]) {
    let square = layer.side * layer.side;
    for (&place, &weight) in group.iter().zip(weights) {
        kernel[layer.plane(channel, place / square) + place % square] = weight;
    }
}

#[cfg(test)]
mod tests {
    use super::*;

    fn layer(kind: usize, inputs: usize, side: usize, stride: usize) -> Layer {
        Layer { kind, inputs, side, stride, outputs: 1, ..Layer::default() }
    }

    #[test]
    fn groups_of_small_kernels() {
        assert_eq!(groups(&layer(CONV, 1, 2, 2)), [[0, 1, 2, 3]]);
        assert_eq!(groups(&layer(1, 1, 2, 1)), [[0, 1, 2, 3]]);
        assert_eq!(groups(&layer(1, 1, 2, 2)), [[0], [1], [2], [3]]);
        assert_eq!(groups(&layer(1, 2, 2, 4)), [[0, 4], [1, 5], [2, 6], [3, 7]]);
        assert_eq!(groups(&layer(1, 1, 3, 2)), [vec![0, 2, 6, 8], vec![1, 7], vec![3, 5], vec![4]]);
    }
}
