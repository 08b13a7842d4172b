//! Numbers of the run's seed: the same ones in a replay.

use std::ops::{Bound, RangeBounds};

/// The generator of the run.
#[derive(Clone, Copy, Debug, Default)]
pub struct ThreadRng;

/// The generator of the run.
pub fn thread_rng() -> ThreadRng {
    ThreadRng
}

/// Where numbers come from.
pub trait RngCore {
    /// A number of 64 bits.
    fn next_u64(&mut self) -> u64;

    /// A number of 32 bits.
    fn next_u32(&mut self) -> u32 {
        (self.next_u64() >> 32) as u32
    }
}

impl RngCore for ThreadRng {
    fn next_u64(&mut self) -> u64 {
        pct::random()
    }
}

/// What is made of a number of 64 bits.
pub trait Drawn: Sized {
    /// The value.
    fn of(number: u64) -> Self;
}

/// An integer of which there are ranges.
pub trait Integer: Copy {
    /// In 128 bits.
    fn wide(self) -> i128;
    /// Out of 128 bits.
    fn of_wide(wide: i128) -> Self;
    /// The least and the greatest one.
    fn ends() -> (i128, i128);
}

macro_rules! integers {
    ($($name:ident),*) => { $(
        impl Drawn for $name {
            fn of(number: u64) -> $name {
                number as $name
            }
        }

        impl Integer for $name {
            fn wide(self) -> i128 {
                self as i128
            }

            fn of_wide(wide: i128) -> $name {
                wide as $name
            }

            fn ends() -> (i128, i128) {
                ($name::MIN as i128, $name::MAX as i128)
            }
        }
    )* };
}

integers!(u8, u16, u32, u64, usize, i8, i16, i32, i64, isize);

impl Drawn for bool {
    fn of(number: u64) -> bool {
        number >> 63 == 1
    }
}

impl Drawn for f64 {
    fn of(number: u64) -> f64 {
        (number >> 11) as f64 / (1u64 << 53) as f64
    }
}

/// What is drawn, as the crate rand has it in part.
pub trait Rng: RngCore {
    /// A value of a type.
    fn gen<T: Drawn>(&mut self) -> T {
        T::of(self.next_u64())
    }

    /// A value of a range. Where the range is no power of two some come a little more often.
    ///
    /// # Panics
    ///
    /// Where the range is empty.
    fn gen_range<T: Integer>(&mut self, range: impl RangeBounds<T>) -> T {
        let first = match range.start_bound() {
            Bound::Included(first) => first.wide(),
            Bound::Excluded(before) => before.wide() + 1,
            Bound::Unbounded => T::ends().0,
        };
        let last = match range.end_bound() {
            Bound::Included(last) => last.wide(),
            Bound::Excluded(behind) => behind.wide() - 1,
            Bound::Unbounded => T::ends().1,
        };
        assert!(first <= last, "the range is empty");
        T::of_wide(first + i128::from(self.next_u64()) % (last - first + 1))
    }

    /// True with this probability.
    ///
    /// # Panics
    ///
    /// Where it isn't between 0 and 1.
    fn gen_bool(&mut self, probability: f64) -> bool {
        assert!((0.0..=1.0).contains(&probability), "no probability: {probability}");
        self.gen::<f64>() < probability
    }
}

impl<T: RngCore> Rng for T {}

/// A value of a type.
pub fn random<T: Drawn>() -> T {
    thread_rng().gen()
}

#[cfg(test)]
mod tests {
    use super::*;

    struct Fixed(u64);

    impl RngCore for Fixed {
        fn next_u64(&mut self) -> u64 {
            self.0
        }
    }

    #[test]
    fn ranges_have_their_ends() {
        assert_eq!(Fixed(0).gen_range(3..7), 3);
        assert_eq!(Fixed(3).gen_range(3..7), 6);
        assert_eq!(Fixed(4).gen_range(3..7), 3);
        assert_eq!(Fixed(4).gen_range(3..=7), 7);
        assert_eq!(Fixed(1).gen_range(-5i8..), -4);
        assert_eq!(Fixed(u64::MAX).gen_range(0..=u64::MAX), u64::MAX);
    }

    #[test]
    fn chances_are_those_that_are_wanted() {
        assert!(!Fixed(0).gen_bool(0.0) && Fixed(0).gen_bool(0.1));
        assert!(Fixed(u64::MAX).gen_bool(1.0) && !Fixed(u64::MAX).gen_bool(0.9));
    }
}
