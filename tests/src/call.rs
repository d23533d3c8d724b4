//! What a run or a job call is given, and the buffers that it writes, with guard values around them.

use crate::engine::Engine;
use crate::layer::Layer;

/// The engine, the job's layer and index, the budget, what is lent to read, and how much of each buffer is lent to
/// write.
#[derive(Clone, Debug, Default, PartialEq, Eq)]
pub struct Call {
    pub engine: Engine,
    pub layer: Layer,
    pub next: usize,
    pub budget: usize,
    pub map: Vec<i16>,
    pub kernel: Vec<i16>,
    pub output_length: usize,
    pub scratch_length: usize,
}

impl Call {
    /// The total of parts.
    pub fn total(&self) -> usize {
        self.engine.total(&self.layer)
    }

    /// The words of scratch that are asked for.
    pub fn scratch_words(&self) -> usize {
        self.engine.scratch_words(&self.layer)
    }
}

/// Guard values on each side of a buffer.
const GUARDS: usize = 16;

/// Words with guard values before and after, which the engine is not lent.
#[derive(Clone)]
pub struct Buffer<T> {
    all: Vec<T>,
}

impl<T: Copy + PartialEq> Buffer<T> {
    /// A buffer of so many words; every word and guard value is drawn.
    pub fn of(length: usize, draw: impl FnMut() -> T) -> Buffer<T> {
        Buffer { all: std::iter::repeat_with(draw).take(length + 2 * GUARDS).collect() }
    }

    /// A buffer of these words; every guard value is drawn.
    pub fn around(words: &[T], draw: impl FnMut() -> T) -> Buffer<T> {
        let guards: Vec<T> = std::iter::repeat_with(draw).take(2 * GUARDS).collect();
        Buffer { all: [&guards[..GUARDS], words, &guards[GUARDS..]].concat() }
    }

    /// The words without their guard values.
    pub fn words(&self) -> &[T] {
        &self.all[GUARDS..self.all.len() - GUARDS]
    }

    /// The first words, to be read; a few more than there are reach into the guard values.
    pub fn show(&self, length: usize) -> &[T] {
        &self.all[GUARDS..][..length]
    }

    /// The first words, to be written; a few more than there are reach into the guard values.
    pub fn lend(&mut self, length: usize) -> &mut [T] {
        &mut self.all[GUARDS..][..length]
    }

    /// The first place, counted from the first word, at which two buffers differ, guard values among them, and both
    /// words.
    pub fn difference(&self, other: &Buffer<T>) -> Option<(isize, T, T)> {
        assert_eq!(self.all.len(), other.all.len());
        let place = (0..self.all.len()).find(|&place| self.all[place] != other.all[place])?;
        Some((place as isize - GUARDS as isize, self.all[place], other.all[place]))
    }
}

#[derive(Clone)]
pub struct Buffers {
    pub output: Buffer<i32>,
    pub scratch: Buffer<u64>,
}
