//! A layer as its sixteen numbers: its full output and the lengths that it asks for, from the request's formulas. Sizes
//! are taken in 128 bits; they are asked for only of layers whose numbers are inside their ranges.

pub const CONV: usize = 0;
pub const TCONV: usize = 1;

#[derive(Clone, Copy, Debug, Default, PartialEq, Eq)]
pub struct Layer {
    pub kind: usize,
    pub field: usize,
    pub inputs: usize,
    pub outputs: usize,
    pub height: usize,
    pub width: usize,
    pub side: usize,
    pub stride: usize,
    pub padding: usize,
    pub peak: usize,
    pub top: usize,
    pub left: usize,
    pub rows: usize,
    pub columns: usize,
    pub below: usize,
    pub beside: usize,
}

impl Layer {
    /// The layer of fourteen numbers in the request's order, with no rows or columns added.
    pub fn of(numbers: [usize; 14]) -> Layer {
        let [kind, field, inputs, outputs, height, width, side, stride, padding, peak, top, left, rows, columns] =
            numbers;
        Layer {
            kind,
            field,
            inputs,
            outputs,
            height,
            width,
            side,
            stride,
            padding,
            peak,
            top,
            left,
            rows,
            columns,
            ..Layer::default()
        }
    }

    /// The layer with one of its sixteen numbers replaced.
    pub fn with(self, place: usize, number: usize) -> Layer {
        let mut numbers = self.numbers();
        numbers[place] = number;
        let [first @ .., below, beside] = numbers;
        Layer { below, beside, ..Layer::of(first) }
    }

    /// The sixteen numbers in the request's order.
    pub fn numbers(&self) -> [usize; 16] {
        let Layer {
            kind,
            field,
            inputs,
            outputs,
            height,
            width,
            side,
            stride,
            padding,
            peak,
            top,
            left,
            rows,
            columns,
            below,
            beside,
        } = *self;
        [
            kind, field, inputs, outputs, height, width, side, stride, padding, peak, top, left, rows, columns, below,
            beside,
        ]
    }

    /// E; below 1 where the full output has no row.
    pub fn full_rows(&self) -> i128 {
        self.full(self.height, self.below)
    }

    /// F; below 1 where the full output has no column.
    pub fn full_columns(&self) -> i128 {
        self.full(self.width, self.beside)
    }

    fn full(&self, length: usize, added: usize) -> i128 {
        let [length, added, side, stride, padding] =
            [length, added, self.side, self.stride, self.padding].map(|number| number as i128);
        match self.kind {
            CONV => (length + 2 * padding - side).div_euclid(stride) + 1,
            _ => (length - 1) * stride + side - 2 * padding + added,
        }
    }

    /// The same layer, not cropped.
    pub fn uncropped(self) -> Layer {
        Layer { top: 0, left: 0, rows: self.full_rows() as usize, columns: self.full_columns() as usize, ..self }
    }

    /// C·H·W.
    pub fn map_length(&self) -> u128 {
        product(&[self.inputs, self.height, self.width])
    }

    /// M·C·K².
    pub fn kernel_length(&self) -> u128 {
        product(&[self.outputs, self.inputs, self.side, self.side])
    }

    /// M·h·w.
    pub fn output_length(&self) -> u128 {
        product(&[self.outputs, self.rows, self.columns])
    }

    /// How far wanted outputs stand apart on the stride-1 grid.
    pub fn step(&self) -> usize {
        match self.kind {
            CONV => self.stride,
            _ => 1,
        }
    }

    /// Where the K by K weights from a map channel to an output channel begin in the kernel.
    pub fn plane(&self, output: usize, input: usize) -> usize {
        let square = self.side * self.side;
        match self.kind {
            CONV => (output * self.inputs + input) * square,
            _ => (input * self.outputs + output) * square,
        }
    }
}

fn product(numbers: &[usize]) -> u128 {
    numbers.iter().map(|&number| number as u128).product()
}
