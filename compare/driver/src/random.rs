//! Numbers drawn from a seed, and the families of reals that cases are made of.

/// splitmix64
pub struct Random(u64);

impl Random {
    /// The numbers of one case: the same seed and case give the same numbers.
    pub fn of(seed: u64, case: u64) -> Self {
        let mut mixed = Self(seed);
        Self(mixed.bits() ^ case.wrapping_mul(0xd134_2543_de82_ef95))
    }

    pub fn bits(&mut self) -> u64 {
        self.0 = self.0.wrapping_add(0x9e37_79b9_7f4a_7c15);
        let mut z = self.0;
        z = (z ^ (z >> 30)).wrapping_mul(0xbf58_476d_1ce4_e5b9);
        z = (z ^ (z >> 27)).wrapping_mul(0x94d0_49bb_1331_11eb);
        z ^ (z >> 31)
    }

    pub fn below(&mut self, limit: usize) -> usize {
        (self.bits() % limit as u64) as usize
    }

    /// A whole number from `least` to `most`, both among them.
    pub fn between(&mut self, least: usize, most: usize) -> usize {
        least + self.below(most - least + 1)
    }

    pub fn one_in(&mut self, count: usize) -> bool {
        self.below(count) == 0
    }

    pub fn pick<T: Copy>(&mut self, of: &[T]) -> T {
        of[self.below(of.len())]
    }

    /// From 0 up to 1.
    pub fn unit(&mut self) -> f64 {
        (self.bits() >> 11) as f64 / (1_u64 << 53) as f64
    }

    fn signed(&mut self, x: f64) -> f64 {
        if self.one_in(2) {
            x
        } else {
            -x
        }
    }

    /// A real with this exponent field and any digits.
    fn with_exponent(&mut self, field: usize) -> f64 {
        let x = f64::from_bits((field as u64) << 52 | self.bits() >> 12);
        self.signed(x)
    }

    /// A NaN of either sign and any digits, or an infinity.
    pub fn not_finite(&mut self) -> f64 {
        match self.below(4) {
            0 => f64::NAN,
            1 => {
                let digits = (self.bits() >> 12).max(1);
                let nan = f64::from_bits(0x7ff << 52 | digits);
                self.signed(nan)
            }
            2 => f64::INFINITY,
            _ => f64::NEG_INFINITY,
        }
    }

    pub fn zero(&mut self) -> f64 {
        self.signed(0.0)
    }

    /// Any real at all, NaNs and infinities too.
    pub fn any(&mut self) -> f64 {
        match self.below(6) {
            0 => self.not_finite(),
            1 => self.zero(),
            2 => f64::from_bits(self.bits()),
            _ => {
                let family = self.family();
                family.real(self)
            }
        }
    }

    pub fn family(&mut self) -> Family {
        use Family::*;
        self.pick(&[
            Whole, Whole, Whole, Ordinary, Ordinary, Ordinary, Ordinary, Ordinary, Ordinary, Ordinary, Moderate,
            Moderate, Wide, Huge, Tiny, NearOne, NearOne,
        ])
    }
}

/// A sort of finite reals.
#[derive(Clone, Copy)]
pub enum Family {
    /// Small whole numbers.
    Whole,
    /// From -1 up to 1.
    Ordinary,
    /// Exponents from -20 to 20.
    Moderate,
    /// Any exponent.
    Wide,
    /// Near the largest value.
    Huge,
    /// Subnormal, or next to it.
    Tiny,
    /// 1 and its neighbours.
    NearOne,
}

impl Family {
    pub fn real(self, random: &mut Random) -> f64 {
        match self {
            Family::Whole => random.below(17) as f64 - 8.0,
            Family::Ordinary => 2.0 * random.unit() - 1.0,
            Family::Moderate => {
                let field = random.between(1003, 1043);
                random.with_exponent(field)
            }
            Family::Wide => {
                let field = random.below(2047);
                random.with_exponent(field)
            }
            Family::Huge => {
                let field = random.between(2036, 2046);
                random.with_exponent(field)
            }
            Family::Tiny => {
                let field = random.below(3);
                let x = random.with_exponent(field);
                f64::from_bits(x.to_bits() >> 52 << 52 | (x.to_bits() << 12 >> 12) >> random.below(52))
            }
            Family::NearOne => {
                let near = f64::from_bits(1.0_f64.to_bits() - 4 + random.below(9) as u64);
                random.signed(near)
            }
        }
    }

    /// A real above 0.
    pub fn positive(self, random: &mut Random) -> f64 {
        let x = self.real(random).abs();
        if x > 0.0 {
            x
        } else {
            f64::from_bits(1)
        }
    }
}

/// The real so many places of the format further on, for a real above 0.
pub fn places_on(x: f64, places: i64) -> f64 {
    f64::from_bits(x.to_bits().wrapping_add_signed(places))
}
