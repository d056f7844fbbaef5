//! The fields of a case, little-endian, and the bytes of a reply.

/// What a call came to: the bytes of an answer, or a refusal whose text document 01's table does not have.
pub enum Reply {
    Answer(Vec<u8>),
    Unknown(String),
}

/// Bytes, read from the front.
pub struct Fields<'a> {
    rest: &'a [u8],
}

impl<'a> Fields<'a> {
    pub fn of(rest: &'a [u8]) -> Self {
        Self { rest }
    }

    pub fn at_end(&self) -> bool {
        self.rest.is_empty()
    }

    pub fn bytes(&mut self, length: usize) -> &'a [u8] {
        let (front, rest) = self.rest.split_at(length);
        self.rest = rest;
        front
    }

    fn array<const N: usize>(&mut self) -> [u8; N] {
        self.bytes(N).try_into().expect("as many bytes as were asked for")
    }

    pub fn u16(&mut self) -> u16 {
        u16::from_le_bytes(self.array())
    }

    pub fn u32(&mut self) -> u32 {
        u32::from_le_bytes(self.array())
    }

    pub fn count(&mut self) -> usize {
        u64::from_le_bytes(self.array()) as usize
    }

    pub fn real(&mut self) -> f64 {
        f64::from_le_bytes(self.array())
    }

    /// One byte, 0 or 1.
    pub fn flag(&mut self) -> bool {
        self.array::<1>() != [0]
    }

    fn slice<T>(&mut self, element: impl Fn(&mut Self) -> T) -> Vec<T> {
        (0..self.u32()).map(|_| element(self)).collect()
    }

    pub fn counts(&mut self) -> Vec<usize> {
        self.slice(Self::count)
    }

    pub fn columns(&mut self) -> Vec<u32> {
        self.slice(Self::u32)
    }

    pub fn reals(&mut self) -> Vec<f64> {
        self.slice(Self::real)
    }
}

/// An answer: its number in document 01's table (0: accepted) and its values.
pub fn answer(number: u16, values: &[f64]) -> Vec<u8> {
    let mut bytes = number.to_le_bytes().to_vec();
    bytes.extend((values.len() as u16).to_le_bytes());
    bytes.extend(values.iter().flat_map(|v| v.to_le_bytes()));
    bytes
}

/// A slice of reals, afterwards.
pub fn push_slice(bytes: &mut Vec<u8>, values: &[f64]) {
    bytes.extend((values.len() as u32).to_le_bytes());
    bytes.extend(values.iter().flat_map(|v| v.to_le_bytes()));
}
