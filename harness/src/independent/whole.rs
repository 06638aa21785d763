//! Whole numbers of up to 320 bits, enough for any finite 32-bit float in units of
//! the smallest one.

const PARTS: usize = 5;

/// Sixty-four bits to a part, the highest first, so that numbers compare as their
/// parts do.
#[derive(Clone, Copy, Debug, Eq, Ord, PartialEq, PartialOrd)]
pub struct Whole([u64; PARTS]);

impl Whole {
    /// A number times 2 to this power, below 2^320.
    pub const fn new(number: u32, power: u32) -> Self {
        let mut parts = [0; PARTS];
        let part = PARTS - 1 - power as usize / 64;
        let wide = (number as u128) << (power % 64);
        parts[part] = wide as u64;
        if part > 0 {
            parts[part - 1] = (wide >> 64) as u64;
        }
        Whole(parts)
    }

    /// The sum, which must be below 2^320.
    pub fn plus(self, other: Self) -> Self {
        let mut parts = [0; PARTS];
        let mut carry = 0;
        for part in (0..PARTS).rev() {
            let sum = u128::from(self.0[part]) + u128::from(other.0[part]) + carry;
            parts[part] = sum as u64;
            carry = sum >> 64;
        }
        assert_eq!(carry, 0, "{self:?} plus {other:?}");
        Whole(parts)
    }

    /// What is left when a number no larger is taken away.
    pub fn minus(self, other: Self) -> Self {
        let mut parts = [0; PARTS];
        let mut borrowed = false;
        for part in (0..PARTS).rev() {
            let (left, below) = self.0[part].overflowing_sub(other.0[part]);
            let (left, below_again) = left.overflowing_sub(borrowed.into());
            parts[part] = left;
            borrowed = below || below_again;
        }
        assert!(!borrowed, "{self:?} minus {other:?}");
        Whole(parts)
    }

    /// How many binary digits it has; 0 has none.
    fn length(self) -> u32 {
        let first = self.0.iter().position(|&part| part != 0);
        first.map_or(0, |first| 64 * (PARTS - first) as u32 - self.0[first].leading_zeros())
    }

    /// The same with zeros for so many of its lowest digits.
    fn cut(mut self, count: u32) -> Self {
        let whole = count as usize / 64;
        let (above, below) = self.0.split_at_mut(PARTS - whole);
        below.fill(0);
        if let Some(last) = above.last_mut() {
            *last = *last >> (count % 64) << (count % 64);
        }
        self
    }

    /// The digit that counts 2 to this power.
    fn digit(self, power: u32) -> u64 {
        self.0[PARTS - 1 - power as usize / 64] >> (power % 64) & 1
    }

    /// The nearest number that has only zeros behind its first so many digits; of two
    /// that are as near, the one whose last digit before the zeros is 0.
    pub fn rounded_to(self, digits: u32) -> Self {
        let zeros = self.length().saturating_sub(digits);
        let below = self.cut(zeros);
        if below == self {
            return self;
        }
        let above = below.plus(Whole::new(1, zeros));
        let (down, up) = (self.minus(below), above.minus(self));
        if down < up || down == up && below.digit(zeros) == 0 {
            below
        } else {
            above
        }
    }
}
