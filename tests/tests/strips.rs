//! What is special to strips: every window, added row and crop of small maps, rows of several strips, each strip alone, the
//! plan, the field and the scratch, and the same layers by both engines.

use wemsteky_tests::call::Call;
use wemsteky_tests::checked::{self, whole_run};
use wemsteky_tests::direct::direct_sums;
use wemsteky_tests::draw;
use wemsteky_tests::engine::Engine::{self, Strips, Tiles};
use wemsteky_tests::layer::{Layer, CONV, TCONV};
use wemsteky_tests::list::List;
use wemsteky_tests::random::{seed, Random};

/// A run of a layer with a drawn map and kernel, held to the direct sums.
fn run(random: &mut Random, layer: Layer) -> Vec<i64> {
    let call = draw::call(random, Strips, layer);
    whole_run(random, &call)
}

/// Every S and P of a side, with every count of rows and of columns that may be added.
fn windows(kind: usize, side: usize) -> impl Iterator<Item = Layer> {
    let paddings = (1..=4).flat_map(move |stride| (0..side).map(move |padding| (stride, padding)));
    paddings.flat_map(move |(stride, padding)| {
        let counts = if kind == CONV { 1 } else { stride };
        let added = (0..counts).flat_map(move |below| (0..counts).map(move |beside| (below, beside)));
        added.map(move |(below, beside)| {
            let layer = Layer::of([kind, 4, 1, 1, 1, 1, side, stride, padding, 100, 0, 0, 0, 0]);
            Layer { below, beside, ..layer }
        })
    })
}

/// Every window with every count of added rows and columns, on the least map that has an output and with up to two rows
/// and two columns more. A stride above the side leaves rows and columns that no weight meets.
fn every_small_layer(test: &'static str, kind: usize) {
    for (trial, window) in (1..=11).flat_map(|side| windows(kind, side)).enumerate() {
        let mut random = Random::new(test, trial);
        let mut least = Layer { outputs: 1 + trial % 2, ..window };
        draw::lengthen(&mut least);
        for (more, wider) in (0..3).flat_map(|more| (0..3).map(move |wider| (more, wider))) {
            let layer = Layer { height: least.height + more, width: least.width + wider, ..least };
            run(&mut random, layer.uncropped());
        }
    }
}

#[test]
fn every_small_layer_in_conv() {
    every_small_layer("strips, small layers in conv", CONV);
}

#[test]
fn every_small_layer_in_tconv() {
    every_small_layer("strips, small layers in tconv", TCONV);
}

/// The first and the count of every crop of so many rows or columns.
fn crops(full: usize) -> impl Iterator<Item = (usize, usize)> {
    (0..full).flat_map(move |first| (1..=full - first).map(move |count| (first, count)))
}

/// Every crop of the rows and of the columns, the other ones whole, of the sides up to 3.
#[test]
fn every_crop_of_small_layers() {
    let mut random = Random::new("strips, crops", 0);
    for window in [CONV, TCONV].into_iter().flat_map(|kind| (1..=3).flat_map(move |side| windows(kind, side))) {
        let layer = Layer { inputs: 2, height: 3, width: 3, ..window };
        if layer.below != layer.beside || layer.full_rows() < 1 {
            continue;
        }
        let whole = layer.uncropped();
        for (first, count) in crops(whole.rows) {
            run(&mut random, Layer { top: first, rows: count, ..whole });
            run(&mut random, Layer { left: first, columns: count, ..whole });
        }
    }
}

/// How many columns have a span of so many places, or of a few less where that is not a span.
fn columns_of(layer: &Layer, span: usize) -> usize {
    (span - 1) / layer.step() + 1
}

/// Crops that begin and end next to the borders of strips, which are counted from the crop's first column.
fn crops_at_borders(test: &'static str, kind: usize) {
    let mut ends = 0;
    for trial in 0..44 {
        let mut random = Random::new(test, trial);
        let (side, stride) = (1 + trial / 4, 1 + trial % 4);
        let (height, padding) = (side.max(3), random.below(side));
        let layer = Layer::of([kind, 4, 1, 1, height, 512, side, stride, padding, 50, 0, 0, 1, 1]);
        let (full, strip) = (layer.full_columns() as usize, Strips.part_length(&layer));
        for span in [1, strip - 1, strip, strip + 1, 2 * strip, 2 * strip + 1] {
            let columns = columns_of(&layer, span);
            let left = random.pick(&[0, 1, columns_of(&layer, strip) - 1, full.saturating_sub(columns)]);
            if left + columns <= full {
                run(&mut random, Layer { left, columns, ..layer });
                ends += 1;
            }
        }
    }
    assert!(ends > 100, "{ends} crops, seed {}", seed());
}

#[test]
fn crops_at_borders_in_conv() {
    crops_at_borders("strips, borders in conv", CONV);
}

#[test]
fn crops_at_borders_in_tconv() {
    crops_at_borders("strips, borders in tconv", TCONV);
}

/// A layer of a few rows with a map of up to 512 columns, not cropped.
fn wide_layer(random: &mut Random, kind: usize) -> Layer {
    let any = draw::any_layer(random, kind, 4, 2, 1);
    let width = match random.below(3) {
        0 => random.pick(&[245, 246, 247, 255, 256, 257, 511, 512]),
        _ => random.between(100, 512),
    };
    let mut layer = Layer { height: random.between(1, 3), width, ..any };
    draw::lengthen(&mut layer);
    layer.uncropped()
}

/// Wide maps in a run, and by jobs in drawn budgets with refused calls between: every stop is held.
fn wide_maps(test: &'static str, kind: usize) {
    let mut most = 0;
    for trial in 0..120 {
        let mut random = Random::new(test, trial);
        let layer = wide_layer(&mut random, kind);
        let call = draw::call(&mut random, Strips, layer);
        let sums = whole_run(&mut random, &call);
        let mut list = List::new(&mut random, call);
        list.finish(&mut random, Some(&sums));
        assert!(list.buffers.output.words().iter().map(|&word| i64::from(word)).eq(sums), "{layer:?}");
        most = most.max(Strips.parts_across(&layer));
    }
    assert!(most >= if kind == CONV { 2 } else { 5 }, "{most} strips in a row, seed {}", seed());
}

#[test]
fn wide_maps_in_conv() {
    wide_maps("strips, wide maps in conv", CONV);
}

#[test]
fn wide_maps_in_tconv() {
    wide_maps("strips, wide maps in tconv", TCONV);
}

/// The widest rows: CONV with 2 times 10 columns of padding, and TCONV with 3 added.
#[test]
fn widest_rows() {
    let mut random = Random::new("strips, widest rows", 0);
    let conv = Layer::of([CONV, 4, 1, 1, 1, 512, 11, 1, 10, 9, 0, 0, 0, 0]).uncropped();
    let tconv = Layer::of([TCONV, 4, 1, 1, 1, 512, 11, 4, 0, 9, 0, 0, 0, 0]);
    let tconv = Layer { beside: 3, ..tconv }.uncropped();
    assert_eq!((conv.columns, tconv.columns), (522, 2_058));
    assert_eq!((Strips.parts_across(&conv), Strips.parts_across(&tconv)), (3, 9));
    run(&mut random, conv);
    run(&mut random, tconv);
}

/// The most channels with the largest map and kernel: two strips of the last row that a weight meets.
#[test]
fn last_row_of_the_greatest_layers() {
    for kind in [CONV, TCONV] {
        let mut random = Random::new("strips, greatest layers", kind);
        let (stride, padding) = if kind == CONV { (1, 10) } else { (4, 0) };
        let layer = Layer::of([kind, 4, 64, 64, 512, 512, 11, stride, padding, 3, 0, 0, 0, 0]).uncropped();
        let last = Layer { top: layer.rows - 1, rows: 1, left: layer.columns - 250, columns: 250, ..layer };
        let sums = run(&mut random, last);
        assert!(sums.iter().any(|&sum| sum != 0), "{last:?}");
    }
}

/// A 1 at every column in turn of a map of one row; the outputs are the weights, moved.
#[test]
fn one_value_at_every_column() {
    for kind in [CONV, TCONV] {
        let mut random = Random::new("strips, one value", kind);
        let layer = Layer::of([kind, 4, 1, 1, 1, 270, 11, 1, if kind == CONV { 10 } else { 0 }, 1, 0, 0, 1, 1]);
        let layer = Layer { columns: layer.full_columns() as usize, ..layer };
        let call = draw::call(&mut random, Strips, layer);
        for column in 0..layer.width {
            let mut map = vec![0; layer.width];
            map[column] = 1;
            let sums = whole_run(&mut random, &Call { map, ..call.clone() });
            for (place, &sum) in sums[column..column + 11].iter().enumerate() {
                let weight = call.kernel[if kind == CONV { 11 * 10 + 10 - place } else { place }];
                assert_eq!(sum, i64::from(weight), "column {column}, weight {place} of kind {kind}");
            }
        }
    }
}

/// Both ends of what a residue reads as, at every place of rows of two strips.
#[test]
fn every_output_at_the_limit() {
    for (trial, (value, weight)) in [(16_384, 2), (16_384, -2), (1, -32_768), (-1, -32_768)].into_iter().enumerate() {
        for kind in [CONV, TCONV] {
            let mut random = Random::new("strips, limit", trial);
            let peak = usize::from(i16::unsigned_abs(value));
            let layer = Layer::of([kind, 4, 1, 1, 2, 512, 1, 1, 0, peak, 0, 0, 2, 512]);
            let call = draw::call(&mut random, Strips, layer);
            let call = Call { map: vec![value; 2 * 512], kernel: vec![weight], ..call };
            let end = i64::from(value) * i64::from(weight);
            assert_eq!(whole_run(&mut random, &call), vec![end; 2 * 512]);
            assert_eq!(end.abs(), 32_768);
        }
    }
}

/// A layer of two channels and two rows, and how many strips there are in a row.
const ROWS: [([usize; 14], usize); 4] = [
    ([CONV, 4, 2, 2, 12, 512, 11, 1, 3, 60, 1, 2, 2, 500], 3),
    ([CONV, 4, 1, 2, 9, 512, 3, 2, 1, 60, 1, 0, 2, 256], 3),
    ([TCONV, 4, 2, 2, 2, 100, 5, 3, 2, 60, 1, 3, 2, 280], 2),
    ([TCONV, 4, 1, 2, 2, 512, 11, 4, 0, 60, 0, 0, 2, 740], 4),
];

/// From every index on, every count of strips, with all that they hold and nothing else; and budgets of one to the end.
#[test]
fn every_index_and_budget() {
    for (trial, (numbers, across)) in ROWS.into_iter().enumerate() {
        let mut random = Random::new("strips, every index", trial);
        let mut call = draw::call(&mut random, Strips, Layer::of(numbers));
        let (sums, total) = (direct_sums(&call.layer, &call.map, &call.kernel), call.total());
        assert_eq!(total, 2 * 2 * across);
        for (next, budget) in (0..=total).flat_map(|next| (0..=total - next + 1).map(move |budget| (next, budget))) {
            (call.next, call.budget) = (next, budget);
            let mut buffers = draw::buffers(&mut random, &call);
            checked::job(&call, &mut buffers, Some(&sums));
        }
        let mut buffers = draw::buffers(&mut random, &call);
        for next in 0..total {
            (call.next, call.budget) = (next, 1);
            assert_eq!(checked::job(&call, &mut buffers, Some(&sums)).done, usize::from(next + 1 == total));
        }
    }
}

/// Strips of a row by walking: one begins at place 0, the next L places further on while there is a wanted place left.
fn walked(layer: &Layer) -> usize {
    let places = (layer.columns - 1) * if layer.kind == CONV { layer.stride } else { 1 } + 1;
    (0..places).step_by(256 - layer.side + 1).count()
}

/// Every K and S with every count of columns.
#[test]
fn plans_of_every_width() {
    let mut random = Random::new("strips, plans", 0);
    for (kind, side) in [CONV, TCONV].into_iter().flat_map(|kind| (1..=11).map(move |side| (kind, side))) {
        for window in windows(kind, side).filter(|window| window.padding == 0 && window.below == window.beside) {
            let (height, width, outputs) = (random.between(11, 512), 512, random.between(1, 64));
            let whole = Layer { height, width, outputs, ..window }.uncropped();
            let rows = random.between(1, whole.rows);
            for columns in 1..=whole.columns {
                let layer = Layer { rows, columns, ..whole };
                let figures = [whole.rows, whole.columns, outputs * rows * walked(&layer), 768];
                assert_eq!(Strips.plan(&layer.numbers()), (0, figures), "{layer:?}");
            }
        }
    }
}

/// Any field but 4 is answered with 2, by a plan, a run and a job call, after 1 and before 3.
#[test]
fn fields() {
    let far = [4 + (1 << 8), 4 + (1 << 16), 4 + (1 << 32), 5 + (1 << 32), 1 << 63, usize::MAX];
    for field in (0..70).filter(|&field| field != 4).chain(far) {
        let mut random = Random::new("strips, fields", field);
        let sound = Layer::of([field % 2, 4, 1, 1, 5, 5, 3, 1, 0, 1, 0, 0, 1, 1]);
        let call = draw::call(&mut random, Strips, sound);
        for (layer, number) in [(sound, 2), (Layer { kind: 2, ..sound }, 1), (Layer { inputs: 0, ..sound }, 2)] {
            let call = Call { layer: Layer { field, ..layer }, ..call.clone() };
            let mut buffers = draw::buffers(&mut random, &call);
            assert_eq!(checked::plan(Strips, &call.layer), number, "field {field}");
            assert_eq!(checked::run(&call, &mut buffers, None).number, number, "field {field}");
            assert_eq!(checked::job(&call, &mut buffers, None).number, number, "field {field}");
        }
    }
}

/// Up to 767 words of scratch are answered with 13; of 768 and more the first 768 are then 0 and the others as lent.
#[test]
fn words_of_scratch() {
    for kind in [CONV, TCONV] {
        let mut random = Random::new("strips, scratch", kind);
        let layer = Layer::of([kind, 4, 2, 2, 9, 9, 3, 2, 1, 9, 0, 0, 3, 4]);
        let mut call = draw::call(&mut random, Strips, layer);
        let sums = direct_sums(&layer, &call.map, &call.kernel);
        let accepted = [768, 769, 1_024, 3_071, 3_072, 12_288];
        for length in [0, 1, 255, 256, 512, 767].into_iter().chain(accepted) {
            call.scratch_length = length;
            let mut buffers = draw::buffers(&mut random, &call);
            let lent = buffers.scratch.words().to_vec();
            let number = checked::run(&call, &mut buffers, Some(&sums)).number;
            assert_eq!(number, if length < 768 { 13 } else { 0 }, "{length} words");
            assert_eq!(checked::job(&call, &mut buffers, Some(&sums)).number, number, "{length} words");
            if number == 0 {
                let left = buffers.scratch.words();
                assert!(left[..768].iter().all(|&word| word == 0) && left[768..] == lent[768..], "{length} words");
            }
        }
    }
}

/// The output of a run by an engine in a field, or its refusal.
fn output(random: &mut Random, engine: Engine, field: usize, call: &Call) -> Result<Vec<i32>, usize> {
    let layer = Layer { field, ..call.layer };
    let call = Call { engine, layer, scratch_length: engine.scratch_words(&layer), ..call.clone() };
    let mut buffers = draw::buffers(random, &call);
    match checked::run(&call, &mut buffers, None).number {
        0 => Ok(buffers.output.words().to_vec()),
        number => Err(number),
    }
}

/// A layer that one engine accepts in field 4 the other accepts too, and all outputs agree, in field 5 as well; one that
/// one refuses the other refuses with the same number.
#[test]
fn engines_agree() {
    let mut refused = 0;
    for trial in 0..400 {
        let mut random = Random::new("strips, both engines", trial);
        let layer = draw::any_layer(&mut random, trial % 2, 4, 3, 130);
        let mut call = draw::call(&mut random, Tiles, layer);
        if random.once_in(8) {
            call.kernel.iter_mut().for_each(|weight| *weight = weight.saturating_mul(2));
        }
        let by_tiles = output(&mut random, Tiles, 4, &call);
        assert!(output(&mut random, Strips, 4, &call) == by_tiles, "{layer:?}");
        if by_tiles.is_ok() {
            assert!(output(&mut random, Tiles, 5, &call) == by_tiles, "{layer:?}");
        }
        refused += usize::from(by_tiles == Err(16));
    }
    assert!(refused > 5 && refused < 100, "{refused} layers are refused, seed {}", seed());
}
