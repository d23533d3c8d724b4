//! The fifteen functions of include/wemsteky.h, behind slices.

use crate::rules::Offender;

mod c {
    /// The plan, the run, the job and the preview of an engine.
    macro_rules! engine {
        ($plan:ident, $run:ident, $job:ident, $preview:ident) => {
            extern "C" {
                pub fn $plan(layer: *const usize, figures: *mut usize) -> usize;
                pub fn $run(
                    layer: *const usize,
                    map: *const i16,
                    map_len: usize,
                    kernel: *const i16,
                    kernel_len: usize,
                    output: *mut i32,
                    output_len: usize,
                    scratch: *mut u64,
                    scratch_len: usize,
                    figures: *mut usize,
                ) -> usize;
                pub fn $job(
                    layer: *const usize,
                    next: usize,
                    budget: usize,
                    map: *const i16,
                    map_len: usize,
                    kernel: *const i16,
                    kernel_len: usize,
                    output: *mut i32,
                    output_len: usize,
                    scratch: *mut u64,
                    scratch_len: usize,
                    figures: *mut usize,
                ) -> usize;
                pub fn $preview(
                    layer: *const usize,
                    next: usize,
                    budget: usize,
                    map: *const i16,
                    map_len: usize,
                    kernel: *const i16,
                    kernel_len: usize,
                    output: *const i32,
                    output_len: usize,
                    scratch: *const u64,
                    scratch_len: usize,
                    figures: *mut usize,
                ) -> usize;
            }
        };
    }

    engine!(wemsteky_plan, wemsteky_run, wemsteky_job, wemsteky_preview);
    engine!(wemsteky_strip_plan, wemsteky_strip_run, wemsteky_strip_job, wemsteky_strip_preview);

    extern "C" {
        pub fn wemsteky_transform(field: usize, words: *mut u64, words_len: usize) -> usize;
        pub fn wemsteky_inverse(field: usize, words: *mut u64, words_len: usize) -> usize;
        pub fn wemsteky_levels(
            shift: usize,
            bound: usize,
            outputs: *const i32,
            outputs_len: usize,
            levels: *mut i16,
            levels_len: usize,
        ) -> usize;
        pub fn wemsteky_noise(seed: u32, map: *mut i16, map_len: usize) -> u32;
        pub fn wemsteky_join(
            first: *const usize,
            first_kernel: *const i16,
            first_len: usize,
            second: *const usize,
            second_kernel: *const i16,
            second_len: usize,
            joined: *mut i16,
            joined_len: usize,
        ) -> usize;
        pub fn wemsteky_worst_map(
            layer: *const usize,
            kernel: *const i16,
            kernel_len: usize,
            map: *mut i16,
            map_len: usize,
        ) -> usize;
        pub fn wemsteky_sequence(
            count: usize,
            steps: *const usize,
            map: *const i16,
            map_len: usize,
            kernels: *const i16,
            kernels_len: usize,
            first_work: *mut i16,
            first_len: usize,
            second_work: *mut i16,
            second_len: usize,
            output: *mut i32,
            output_len: usize,
            scratch: *mut u64,
            scratch_len: usize,
            final_map: *mut i16,
            final_len: usize,
            figures: *mut usize,
        ) -> usize;
    }
}

/// A call of a C function: plain arguments, then the slices that it reads, then those that it writes, each as its pointer
/// and its length, then what comes last.
macro_rules! called {
    ($function:expr, ($($plain:expr),*), read($($read:expr),*), written($($written:expr),*) $(, $last:expr)?) => {
        // Safety: every pointer is of a slice of the length beside it, or of an array of the length that the header names,
        // and is not null; borrowed slices do not overlap.
        unsafe {
            $function(
                $($plain,)*
                $($read.as_ptr(), $read.len(),)*
                $($written.as_mut_ptr(), $written.len(),)*
                $($last)?
            )
        }
    };
}

/// What stands in a figure before the call: no call returns it.
const UNWRITTEN: usize = usize::MAX - 12_345;

/// What a run or a job call returns.
#[derive(Clone, Copy, Debug, PartialEq, Eq)]
pub struct Answer {
    pub number: usize,
    pub count: usize,
    pub next: usize,
    pub done: usize,
    pub offender: Offender,
}

impl Answer {
    fn of(number: usize, [count, next, done, channel, row, column, side]: [usize; 7]) -> Answer {
        Answer { number, count, next, done, offender: Offender { channel, row, column, side } }
    }
}

/// What a preview returns: what the call would, and how many output values it would store.
#[derive(Clone, Copy, Debug, PartialEq, Eq)]
pub struct Preview {
    pub answer: Answer,
    pub values: usize,
}

/// The answer of a call that returns a number and writes seven figures.
fn answer(call: impl FnOnce(*mut usize) -> usize) -> Answer {
    let mut figures = [UNWRITTEN; 7];
    Answer::of(call(figures.as_mut_ptr()), figures)
}

/// What a layer is cut into: tiles, which are squares, or strips, which lie in one output row.
#[derive(Clone, Copy, Debug, Default, PartialEq, Eq)]
pub enum Engine {
    #[default]
    Tiles,
    Strips,
}

impl Engine {
    /// The number and the four figures: E, F, the total of parts and the words of scratch.
    pub fn plan(self, layer: &[usize; 16]) -> (usize, [usize; 4]) {
        let function = match self {
            Engine::Tiles => c::wemsteky_plan,
            Engine::Strips => c::wemsteky_strip_plan,
        };
        let mut figures = [UNWRITTEN; 4];
        let number = called!(function, (layer.as_ptr()), read(), written(), figures.as_mut_ptr());
        (number, figures)
    }

    pub fn run(
        self,
        layer: &[usize; 16],
        map: &[i16],
        kernel: &[i16],
        output: &mut [i32],
        scratch: &mut [u64],
    ) -> Answer {
        let function = match self {
            Engine::Tiles => c::wemsteky_run,
            Engine::Strips => c::wemsteky_strip_run,
        };
        answer(|figures| called!(function, (layer.as_ptr()), read(map, kernel), written(output, scratch), figures))
    }

    pub fn job(
        self,
        layer: &[usize; 16],
        (next, budget): (usize, usize),
        (map, kernel): (&[i16], &[i16]),
        output: &mut [i32],
        scratch: &mut [u64],
    ) -> Answer {
        let function = match self {
            Engine::Tiles => c::wemsteky_job,
            Engine::Strips => c::wemsteky_strip_job,
        };
        answer(|figures| {
            called!(function, (layer.as_ptr(), next, budget), read(map, kernel), written(output, scratch), figures)
        })
    }

    pub fn preview(
        self,
        layer: &[usize; 16],
        (next, budget): (usize, usize),
        (map, kernel): (&[i16], &[i16]),
        output: &[i32],
        scratch: &[u64],
    ) -> Preview {
        let function = match self {
            Engine::Tiles => c::wemsteky_preview,
            Engine::Strips => c::wemsteky_strip_preview,
        };
        let mut figures = [UNWRITTEN; 8];
        let number = called!(
            function,
            (layer.as_ptr(), next, budget),
            read(map, kernel, output, scratch),
            written(),
            figures.as_mut_ptr()
        );
        let [count, next, done, channel, row, column, side, values] = figures;
        Preview { answer: Answer::of(number, [count, next, done, channel, row, column, side]), values }
    }
}

pub fn transform(field: usize, words: &mut [u64]) -> usize {
    called!(c::wemsteky_transform, (field), read(), written(words))
}

pub fn inverse(field: usize, words: &mut [u64]) -> usize {
    called!(c::wemsteky_inverse, (field), read(), written(words))
}

pub fn levels(shift: usize, bound: usize, outputs: &[i32], levels: &mut [i16]) -> usize {
    called!(c::wemsteky_levels, (shift, bound), read(outputs), written(levels))
}

pub fn noise(seed: u32, map: &mut [i16]) -> u32 {
    called!(c::wemsteky_noise, (seed), read(), written(map))
}

/// Each layer with its kernel.
pub fn join(first: (&[usize; 16], &[i16]), second: (&[usize; 16], &[i16]), joined: &mut [i16]) -> usize {
    let (layer, kernel) = first;
    called!(
        c::wemsteky_join,
        (layer.as_ptr(), kernel.as_ptr(), kernel.len(), second.0.as_ptr()),
        read(second.1),
        written(joined)
    )
}

pub fn worst_map(layer: &[usize; 16], kernel: &[i16], map: &mut [i16]) -> usize {
    called!(c::wemsteky_worst_map, (layer.as_ptr()), read(kernel), written(map))
}

/// What a sequence is lent to write.
pub struct Lent<'a> {
    pub first_work: &'a mut [i16],
    pub second_work: &'a mut [i16],
    pub output: &'a mut [i32],
    pub scratch: &'a mut [u64],
    pub final_map: &'a mut [i16],
}

/// The number, and the place and side that stand in the four figures. The words around the figures must stay.
pub fn sequence(
    count: usize,
    steps: &[usize; 144],
    (map, kernels): (&[i16], &[i16]),
    Lent { first_work, second_work, output, scratch, final_map }: Lent,
) -> (usize, Offender) {
    let mut figures = [UNWRITTEN; 6];
    let number = called!(
        c::wemsteky_sequence,
        (count, steps.as_ptr()),
        read(map, kernels),
        written(first_work, second_work, output, scratch, final_map),
        figures[1..5].as_mut_ptr()
    );
    let [before, channel, row, column, side, after] = figures;
    assert_eq!([before, after], [UNWRITTEN; 2], "written beside the figures");
    (number, Offender { channel, row, column, side })
}
