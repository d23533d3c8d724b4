//! Two filters joined, from the request's words: each pair of weights that meet in a middle channel adds its product to
//! the weight at the sum of their places. Sums and lengths are taken in 128 bits.

use crate::layer::{Layer, CONV};

/// A layer and its kernel.
pub type Filter<'a> = (&'a Layer, &'a [i16]);

/// The layer of the joined kernel.
pub fn joined_layer(first: &Layer, second: &Layer) -> Layer {
    Layer { outputs: second.outputs, side: first.side + second.side - 1, ..*first }
}

/// Every weight of the joined kernel, in its order.
pub fn joined_weights((first, first_kernel): Filter, (second, second_kernel): Filter) -> Vec<i128> {
    let joined = joined_layer(first, second);
    let mut weights = vec![0; joined.kernel_length() as usize];
    for output in 0..second.outputs {
        for middle in 0..first.outputs {
            let met = &second_kernel[second.plane(output, middle)..][..second.side * second.side];
            for input in 0..first.inputs {
                let plane = &first_kernel[first.plane(middle, input)..][..first.side * first.side];
                let sums = &mut weights[joined.plane(output, input)..][..joined.side * joined.side];
                add_products((plane, first.side), (met, second.side), sums);
            }
        }
    }
    weights
}

/// Adds the products of two planes, each with its side, to the sums of their places.
fn add_products((plane, side): (&[i16], usize), (met, other): (&[i16], usize), sums: &mut [i128]) {
    for (place, &weight) in plane.iter().enumerate() {
        for (more, &factor) in met.iter().enumerate() {
            let (row, column) = (place / side + more / other, place % side + more % other);
            sums[row * (side + other - 1) + column] += i128::from(weight) * i128::from(factor);
        }
    }
}

/// What `join` returns.
pub fn number(first: Filter, second: Filter, room: usize) -> usize {
    if !accepts(first) || !accepts(second) || first.0.outputs != second.0.inputs {
        return 26;
    }
    let joined = joined_layer(first.0, second.0);
    if room as u128 != joined.kernel_length() {
        26
    } else if joined.side > 11 {
        27
    } else if joined_weights(first, second).iter().any(|&weight| i16::try_from(weight).is_err()) {
        28
    } else {
        0
    }
}

fn accepts((layer, kernel): Filter) -> bool {
    let inside = |most: usize, number: usize| (1..=most).contains(&number);
    (layer.kind, layer.stride, layer.padding) == (CONV, 1, 0)
        && inside(64, layer.inputs)
        && inside(64, layer.outputs)
        && inside(11, layer.side)
        && kernel.len() as u128 == layer.kernel_length()
}

#[cfg(test)]
mod tests {
    use super::*;

    fn filter(inputs: usize, outputs: usize, side: usize) -> Layer {
        Layer { inputs, outputs, side, stride: 1, ..Layer::default() }
    }

    #[test]
    fn planes_of_2_by_2() {
        let layer = filter(1, 1, 2);
        let weights = joined_weights((&layer, &[1, 2, 3, 4]), (&layer, &[5, 6, 7, 8]));
        assert_eq!(weights, [5, 16, 12, 22, 60, 40, 21, 52, 32]);
    }

    #[test]
    fn channels_of_side_1_are_a_product_of_matrices() {
        let (first, second) = (filter(3, 2, 1), filter(2, 2, 1));
        let weights = joined_weights((&first, &[1, 2, 3, 4, 5, 6]), (&second, &[7, 8, 9, 10]));
        assert_eq!(weights, [39, 54, 69, 49, 68, 87]);
    }
}
