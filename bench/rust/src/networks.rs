//! The networks that are measured, and numbers drawn from a seed.

/// Row starts, columns and values of a network with n nodes, and a signal on it.
#[derive(Clone)]
pub struct Network {
    pub n: usize,
    pub row_ptr: Vec<usize>,
    pub col_idx: Vec<u32>,
    pub vals: Vec<f64>,
    pub signal: Vec<f64>,
}

#[derive(Clone, Copy)]
pub enum Shape {
    /// Five entries a row, at the row's own column and its neighbours'.
    Banded,
    /// Three to seven entries a row, at random columns.
    Scattered,
}

impl Shape {
    pub fn name(self) -> &'static str {
        match self {
            Shape::Banded => "five entries a row, banded",
            Shape::Scattered => "three to seven entries a row, at random columns",
        }
    }
}

/// splitmix64
pub struct Random(pub u64);

impl Random {
    fn bits(&mut self) -> u64 {
        self.0 = self.0.wrapping_add(0x9e37_79b9_7f4a_7c15);
        let mut z = self.0;
        z = (z ^ (z >> 30)).wrapping_mul(0xbf58_476d_1ce4_e5b9);
        z = (z ^ (z >> 27)).wrapping_mul(0x94d0_49bb_1331_11eb);
        z ^ (z >> 31)
    }

    fn below(&mut self, limit: usize) -> usize {
        (self.bits() % limit as u64) as usize
    }

    /// From -1 up to 1.
    pub fn real(&mut self) -> f64 {
        (self.bits() >> 11) as f64 / (1_u64 << 52) as f64 - 1.0
    }
}

impl Network {
    pub fn new(shape: Shape, n: usize, random: &mut Random) -> Self {
        let mut row_ptr = vec![0];
        let mut col_idx: Vec<u32> = Vec::new();
        for i in 0..n {
            match shape {
                Shape::Banded => col_idx.extend((0..5).map(|k| ((i + n + k - 2) % n) as u32)),
                Shape::Scattered => {
                    for _ in 0..3 + random.below(5) {
                        col_idx.push(random.below(n) as u32);
                    }
                }
            }
            row_ptr.push(col_idx.len());
        }
        let vals = col_idx.iter().map(|_| random.real()).collect();
        let signal = (0..n).map(|_| random.real()).collect();
        Self {
            n,
            row_ptr,
            col_idx,
            vals,
            signal,
        }
    }

    /// The network at another time: the same rows and columns, in slices of its own, with other values.
    pub fn at_another_time(&self, random: &mut Random) -> Self {
        Self {
            n: self.n,
            row_ptr: self.row_ptr.clone(),
            col_idx: self.col_idx.clone(),
            vals: self.vals.iter().map(|_| random.real()).collect(),
            signal: self.signal.clone(),
        }
    }
}
