//! What differs between the engines, from the request's formulas: the fields, the scratch, and the parts that a job is
//! counted in.

use crate::engine::Engine;
use crate::layer::Layer;
use crate::transform::points;
use std::ops::Range;

pub const ENGINES: [Engine; 2] = [Engine::Tiles, Engine::Strips];

/// Each engine with each field that it accepts.
pub const ENGINES_AND_FIELDS: [(Engine, usize); 3] = [(Engine::Tiles, 4), (Engine::Tiles, 5), (Engine::Strips, 4)];

impl Engine {
    /// The greatest field that it accepts; the least is 4.
    pub fn last_field(self) -> usize {
        match self {
            Engine::Tiles => 5,
            Engine::Strips => 4,
        }
    }

    /// 3N² for tiles; for strips 768 whatever the layer.
    pub fn scratch_words(self, layer: &Layer) -> usize {
        match self {
            Engine::Tiles => 3 * points(layer.field) * points(layer.field),
            Engine::Strips => 768,
        }
    }

    /// L, the places of the stride-1 grid that a part covers in a row; a tile covers as many rows.
    pub fn part_length(self, layer: &Layer) -> usize {
        match self {
            Engine::Tiles => points(layer.field) - layer.side + 1,
            Engine::Strips => 257 - layer.side,
        }
    }

    /// Parts down a channel: ⌈R/L⌉ tiles, or a strip for each output row.
    fn parts_down(self, layer: &Layer) -> usize {
        match self {
            Engine::Tiles => ((layer.rows - 1) * layer.step() + 1).div_ceil(self.part_length(layer)),
            Engine::Strips => layer.rows,
        }
    }

    /// Parts across: ⌈Q/L⌉.
    pub fn parts_across(self, layer: &Layer) -> usize {
        ((layer.columns - 1) * layer.step() + 1).div_ceil(self.part_length(layer))
    }

    pub fn total(self, layer: &Layer) -> usize {
        layer.outputs * self.parts_down(layer) * self.parts_across(layer)
    }

    /// The part that holds an output; row and column are counted from the crop's first.
    pub fn part_of(self, layer: &Layer, channel: usize, row: usize, column: usize) -> usize {
        let down = match self {
            Engine::Tiles => row * layer.step() / self.part_length(layer),
            Engine::Strips => row,
        };
        let across = column * layer.step() / self.part_length(layer);
        (channel * self.parts_down(layer) + down) * self.parts_across(layer) + across
    }

    /// The places in the output, in order, of the outputs that some parts hold.
    pub fn places(self, layer: &Layer, parts: Range<usize>) -> impl Iterator<Item = usize> {
        let layer = *layer;
        let output = (0..layer.outputs).flat_map(move |channel| {
            (0..layer.rows).flat_map(move |row| (0..layer.columns).map(move |column| (channel, row, column)))
        });
        let held =
            output.map(move |(channel, row, column)| parts.contains(&self.part_of(&layer, channel, row, column)));
        held.enumerate().filter_map(|(place, held)| held.then_some(place))
    }
}

#[cfg(test)]
mod tests {
    use super::*;
    use crate::layer::{CONV, TCONV};

    #[test]
    fn tiles_of_chart_case_11() {
        let layer = |height| Layer::of([CONV, 4, 1, 1, height, 32, 3, 1, 0, 1, 0, 0, 0, 0]).uncropped();
        assert_eq!(Engine::Tiles.total(&layer(32)), 1);
        assert_eq!(Engine::Tiles.total(&layer(33)), 2);
    }

    /// With K 3 a strip covers 254 places: as many outputs of TCONV, every second of them in CONV with S 2.
    #[test]
    fn strips_of_a_row() {
        let total = |kind, columns| {
            Engine::Strips.total(&Layer { columns, ..Layer::of([kind, 4, 1, 1, 1, 512, 3, 2, 0, 1, 0, 0, 1, 1]) })
        };
        assert_eq!([1, 254, 255, 508, 509].map(|columns| total(TCONV, columns)), [1, 1, 2, 2, 3]);
        assert_eq!([1, 127, 128, 254, 255].map(|columns| total(CONV, columns)), [1, 1, 2, 2, 3]);
    }

    /// Two channels of three rows of two strips, of which the second holds one output.
    #[test]
    fn places_of_strips() {
        let layer = Layer::of([TCONV, 4, 1, 2, 9, 100, 3, 4, 0, 1, 5, 7, 3, 255]);
        let places = |strips| Engine::Strips.places(&layer, strips).collect::<Vec<_>>();
        assert_eq!(Engine::Strips.total(&layer), 12);
        assert_eq!(places(0..1), (0..254).collect::<Vec<_>>());
        assert_eq!(places(1..3), (254..509).collect::<Vec<_>>());
        assert_eq!(places(11..12), [2 * 3 * 255 - 1]);
    }

    #[test]
    fn every_part_holds_an_output_and_no_other_number_is_a_part() {
        let layer = Layer::of([CONV, 4, 1, 2, 70, 500, 11, 4, 3, 1, 2, 1, 10, 120]);
        for (engine, field) in ENGINES_AND_FIELDS {
            let layer = Layer { field, ..layer };
            let mut held = vec![false; engine.total(&layer)];
            for channel in 0..layer.outputs {
                for row in 0..layer.rows {
                    for column in 0..layer.columns {
                        held[engine.part_of(&layer, channel, row, column)] = true;
                    }
                }
            }
            assert!(held.iter().all(|&part| part), "{engine:?} in field {field}");
        }
    }
}
