//! The node test cases of the ONNX operators Conv and ConvTranspose that sixteen numbers express: square kernels and
//! strides, equal padding, no groups, no bias, whole numbers. Maps count from 0 by rows and kernels are of ones, but in
//! the last case. The node test cases with output_padding have strides that differ; the two here are the same map and
//! kernel with one stride.

use wemsteky_tests::example::Example;
use wemsteky_tests::layer::{Layer, CONV, TCONV};

/// One map channel of whole numbers from 0 on, and a 3 by 3 kernel of ones for each output channel. All output channels
/// are alike.
fn hold_ones(name: &str, layer: Layer, channel: &[i32]) {
    let map: Vec<i16> = (0..layer.map_length() as i16).collect();
    let kernel = vec![1; layer.kernel_length() as usize];
    Example { name, layer, map: &map, kernel: &kernel, output: &channel.repeat(layer.outputs) }.hold();
}

/// H, W, S and P of one channel with K 3, not cropped.
fn conv(height: usize, width: usize, stride: usize, padding: usize) -> Layer {
    Layer::of([CONV, 4, 1, 1, height, width, 3, stride, padding, 1, 0, 0, 0, 0]).uncropped()
}

/// S of the 3 by 3 map with two output channels and K 3, not cropped.
fn transposed(stride: usize) -> Layer {
    Layer::of([TCONV, 4, 1, 2, 3, 3, 3, stride, 0, 1, 0, 0, 0, 0]).uncropped()
}

#[rustfmt::skip]
#[test]
fn test_basic_conv_with_padding() {
    hold_ones("test_basic_conv_with_padding", conv(5, 5, 1, 1), &[
        12, 21, 27, 33, 24,
        33, 54, 63, 72, 51,
        63, 99, 108, 117, 81,
        93, 144, 153, 162, 111,
        72, 111, 117, 123, 84,
    ]);
}

#[test]
fn test_basic_conv_without_padding() {
    hold_ones("test_basic_conv_without_padding", conv(5, 5, 1, 0), &[54, 63, 72, 99, 108, 117, 144, 153, 162]);
}

#[rustfmt::skip]
#[test]
fn test_conv_with_strides_padding() {
    hold_ones("test_conv_with_strides_padding", conv(7, 5, 2, 1), &[
        12, 27, 24,
        63, 108, 81,
        123, 198, 141,
        112, 177, 124,
    ]);
}

#[test]
fn test_conv_with_strides_no_padding() {
    hold_ones("test_conv_with_strides_no_padding", conv(7, 5, 2, 0), &[54, 72, 144, 162, 234, 252]);
}

/// SAME_LOWER with stride 2 on 5 by 5: 3 by 3 outputs, hence (3 − 1)·2 + 3 − 5 = 2 rows of padding, one on each side.
#[test]
fn test_conv_with_autopad_same() {
    hold_ones("test_conv_with_autopad_same", conv(5, 5, 2, 1), &[12, 27, 24, 63, 108, 81, 72, 117, 84]);
}

#[rustfmt::skip]
#[test]
fn test_convtranspose() {
    hold_ones("test_convtranspose", transposed(1), &[
        0, 1, 3, 3, 2,
        3, 8, 15, 12, 7,
        9, 21, 36, 27, 15,
        9, 20, 33, 24, 13,
        6, 13, 21, 15, 8,
    ]);
}

/// SAME_UPPER with stride 2 asks for 6 by 6 of the 7 by 7 outputs: the last row and column are cut, which is a crop.
#[rustfmt::skip]
#[test]
fn test_convtranspose_autopad_same() {
    let layer = Layer { rows: 6, columns: 6, ..transposed(2) };
    hold_ones("test_convtranspose_autopad_same", layer, &[
        0, 0, 1, 1, 3, 2,
        0, 0, 1, 1, 3, 2,
        3, 3, 8, 5, 12, 7,
        3, 3, 7, 4, 9, 5,
        9, 9, 20, 11, 24, 13,
        6, 6, 13, 7, 15, 8,
    ]);
}

/// strides 2, output_padding 1: S·2 + output_padding + 3 is 8. Nothing reaches the added row and column.
#[rustfmt::skip]
#[test]
fn convtranspose_with_output_padding() {
    let layer = Layer { below: 1, beside: 1, ..transposed(2) }.uncropped();
    hold_ones("output_padding 1", layer, &[
        0, 0, 1, 1, 3, 2, 2, 0,
        0, 0, 1, 1, 3, 2, 2, 0,
        3, 3, 8, 5, 12, 7, 7, 0,
        3, 3, 7, 4, 9, 5, 5, 0,
        9, 9, 20, 11, 24, 13, 13, 0,
        6, 6, 13, 7, 15, 8, 8, 0,
        6, 6, 13, 7, 15, 8, 8, 0,
        0, 0, 0, 0, 0, 0, 0, 0,
    ]);
}

/// strides 2, pads 1, output_padding 1: the pads cut one row and column at each end, and the added ones bring back the last.
#[rustfmt::skip]
#[test]
fn convtranspose_with_pads_and_output_padding() {
    let layer = Layer { padding: 1, below: 1, beside: 1, ..transposed(2) }.uncropped();
    hold_ones("pads 1, output_padding 1", layer, &[
        0, 1, 1, 3, 2, 2,
        3, 8, 5, 12, 7, 7,
        3, 7, 4, 9, 5, 5,
        9, 20, 11, 24, 13, 13,
        6, 13, 7, 15, 8, 8,
        6, 13, 7, 15, 8, 8,
    ]);
}

/// The kernel 7 2 / 1 9 with dilation 2 is a 3 by 3 kernel with zeros between. In the middle 6·7 + 3·2 + 1·1 + 3·9 =
/// 76.
#[rustfmt::skip]
#[test]
fn test_convtranspose_dilations() {
    Example {
        name: "test_convtranspose_dilations",
        layer: Layer { outputs: 1, ..transposed(1) },
        map: &[
            3, 8, 1,
            9, 5, 7,
            3, 2, 6,
        ],
        kernel: &[
            7, 0, 2,
            0, 0, 0,
            1, 0, 9,
        ],
        output: &[
            21, 56, 13, 16, 2,
            63, 35, 67, 10, 14,
            24, 22, 76, 76, 21,
            9, 5, 88, 45, 63,
            3, 2, 33, 18, 54,
        ],
    }.hold();
}
