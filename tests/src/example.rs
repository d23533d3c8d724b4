//! Worked examples: a layer, its map and kernel, and the output that is known.

use crate::call::Call;
use crate::checked;
use crate::direct::direct_sums;
use crate::draw;
use crate::engine::Engine;
use crate::layer::Layer;
use crate::parts::ENGINES_AND_FIELDS;
use crate::random::Random;

pub struct Example<'a> {
    pub name: &'a str,
    /// The field is set by `hold`, the peak to the greatest size in the map.
    pub layer: Layer,
    pub map: &'a [i16],
    pub kernel: &'a [i16],
    pub output: &'a [i32],
}

impl Example<'_> {
    /// Holds the direct sums and a run to the known output, by each engine in each field.
    pub fn hold(&self) {
        for (engine, field) in ENGINES_AND_FIELDS {
            let call = self.call(engine, field);
            let sums = direct_sums(&call.layer, self.map, self.kernel);
            let known: Vec<i64> = self.output.iter().map(|&word| i64::from(word)).collect();
            assert_eq!(sums, known, "direct sums of {}", self.name);
            let mut buffers = draw::buffers(&mut Random::new("example", field), &call);
            assert_eq!(checked::run(&call, &mut buffers, None).number, 0, "run of {}", self.name);
            assert_eq!(buffers.output.words(), self.output, "run of {}", self.name);
        }
    }

    fn call(&self, engine: Engine, field: usize) -> Call {
        let peak = self.map.iter().map(|value| usize::from(value.unsigned_abs())).max().unwrap_or(1);
        let layer = Layer { field, peak, ..self.layer };
        Call {
            engine,
            layer,
            next: 0,
            budget: 0,
            map: self.map.to_vec(),
            kernel: self.kernel.to_vec(),
            output_length: self.output.len(),
            scratch_length: engine.scratch_words(&layer),
        }
    }
}
