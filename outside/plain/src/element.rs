//! What one copy holds, and how two of them are joined.

/// The packed form of an element; words that a kind does not use are zero.
pub type Words = [u32; 3];

/// The kinds of elements that a scene may have.
#[derive(Clone, Copy, Debug, PartialEq, Eq)]
pub enum Kind {
    Force,
    Depth,
    Tags,
}

impl Kind {
    pub fn from_number(number: u8) -> Option<Kind> {
        match number {
            Force::KIND => Some(Kind::Force),
            Depth::KIND => Some(Kind::Depth),
            Tags::KIND => Some(Kind::Tags),
            _ => None,
        }
    }

    pub fn number(self) -> u8 {
        match self {
            Kind::Force => Force::KIND,
            Kind::Depth => Depth::KIND,
            Kind::Tags => Tags::KIND,
        }
    }

    /// How many words of a contribution this kind uses.
    pub fn used(self) -> usize {
        match self {
            Kind::Force => Force::USED,
            Kind::Depth => Depth::USED,
            Kind::Tags => Tags::USED,
        }
    }
}

/// An element: join is associative and commutative, with `ZERO` as its neutral element.
pub trait Element: Copy {
    const KIND: u8;
    const USED: usize;
    const ZERO: Self;

    fn join(self, other: Self) -> Self;
    fn pack(self) -> Words;
    fn unpack(words: Words) -> Self;
}

/// Three axes, summed with wrap-around.
#[derive(Clone, Copy, Debug, PartialEq, Eq)]
pub struct Force([i32; 3]);

impl Element for Force {
    const KIND: u8 = 1;
    const USED: usize = 3;
    const ZERO: Self = Force([0; 3]);

    #[inline]
    fn join(self, other: Self) -> Self {
        let ([a, b, c], [d, e, f]) = (self.0, other.0);
        Force([a.wrapping_add(d), b.wrapping_add(e), c.wrapping_add(f)])
    }

    #[inline]
    fn pack(self) -> Words {
        self.0.map(i32::cast_unsigned)
    }

    #[inline]
    fn unpack(words: Words) -> Self {
        Force(words.map(u32::cast_signed))
    }
}

/// One unsigned number, of which the larger wins.
#[derive(Clone, Copy, Debug, PartialEq, Eq)]
pub struct Depth(u32);

impl Element for Depth {
    const KIND: u8 = 2;
    const USED: usize = 1;
    const ZERO: Self = Depth(0);

    #[inline]
    fn join(self, other: Self) -> Self {
        Depth(self.0.max(other.0))
    }

    #[inline]
    fn pack(self) -> Words {
        [self.0, 0, 0]
    }

    #[inline]
    fn unpack([depth, _, _]: Words) -> Self {
        Depth(depth)
    }
}

/// A set of up to 64 tags, the low 32 of them in the first word.
#[derive(Clone, Copy, Debug, PartialEq, Eq)]
pub struct Tags {
    low: u32,
    high: u32,
}

impl Element for Tags {
    const KIND: u8 = 3;
    const USED: usize = 2;
    const ZERO: Self = Tags { low: 0, high: 0 };

    #[inline]
    fn join(self, other: Self) -> Self {
        Tags {
            low: self.low | other.low,
            high: self.high | other.high,
        }
    }

    #[inline]
    fn pack(self) -> Words {
        [self.low, self.high, 0]
    }

    #[inline]
    fn unpack([low, high, _]: Words) -> Self {
        Tags { low, high }
    }
}

#[cfg(test)]
mod tests {
    use super::*;

    fn joined<E: Element>(a: Words, b: Words) -> Words {
        E::unpack(a).join(E::unpack(b)).pack()
    }

    #[test]
    fn forces_wrap_around() {
        let top = i32::MAX.cast_unsigned();
        assert_eq!(
            joined::<Force>([top, 1, u32::MAX], [1, 2, 1]),
            [2_147_483_648, 3, 0]
        );
    }

    #[test]
    fn the_larger_depth_wins_unsigned() {
        assert_eq!(
            joined::<Depth>([u32::MAX, 9, 9], [1, 9, 9]),
            [u32::MAX, 0, 0]
        );
    }

    #[test]
    fn tags_are_united() {
        assert_eq!(
            joined::<Tags>([0b0101, 1, 7], [0b0011, 8, 7]),
            [0b0111, 9, 0]
        );
    }

    #[test]
    fn zero_changes_nothing() {
        let words = [3, 2_000_000_000, 4_000_000_000];
        assert_eq!(Force::unpack(words).join(Force::ZERO), Force::unpack(words));
        assert_eq!(Depth::unpack(words).join(Depth::ZERO), Depth::unpack(words));
        assert_eq!(Tags::unpack(words).join(Tags::ZERO), Tags::unpack(words));
    }
}
