/// A whole number below 2²⁵⁶: four words, the highest first, so that they compare as the numbers do.
#[derive(Clone, Copy, PartialEq, Eq, PartialOrd, Ord)]
pub(crate) struct Whole([u64; 4]);

impl Whole {
    pub(crate) const ZERO: Whole = Whole([0; 4]);
    const ONE: Whole = Whole([0, 0, 0, 1]);

    pub(crate) fn product(factors: impl Iterator<Item = u64>) -> Whole {
        factors.fold(Whole::ONE, Whole::times)
    }

    pub(crate) fn times(self, factor: u64) -> Whole {
        self.each_word(Whole::ZERO, |word, _| u128::from(word) * u128::from(factor))
    }

    pub(crate) fn plus(self, other: Whole) -> Whole {
        self.each_word(other, |word, more| u128::from(word) + u128::from(more))
    }

    /// Puts two numbers together word by word, from the lowest up, each carrying into the next.
    fn each_word(self, other: Whole, together: impl Fn(u64, u64) -> u128) -> Whole {
        let (mut words, mut carry) = ([0; 4], 0);
        for index in (0..4).rev() {
            let sum = together(self.0[index], other.0[index]) + carry;
            words[index] = sum as u64;
            carry = sum >> 64;
        }
        assert_eq!(carry, 0, "a number below 2²⁵⁶");
        Whole(words)
    }
}

#[cfg(test)]
mod tests {
    use super::Whole;

    const MOST: u64 = u64::MAX;

    #[test]
    fn carries_go_up_through_all_words() {
        let low_three = Whole([0, MOST, MOST, MOST]);
        assert!(low_three.plus(Whole::ONE) == Whole([1, 0, 0, 0]));
        assert!(low_three.times(2) == Whole([1, MOST, MOST, MOST - 1]));
        // (2⁶⁴ − 1)² = 2¹²⁸ − 2 × 2⁶⁴ + 1.
        assert!(Whole::product([MOST, MOST].into_iter()) == Whole([0, 0, MOST - 1, 1]));
        // (2⁶⁴ − 1)⁴ = 2²⁵⁶ − 4 × 2¹⁹² + 6 × 2¹²⁸ − 4 × 2⁶⁴ + 1.
        let fourth = Whole::product([MOST; 4].into_iter());
        assert!(fourth == Whole([MOST - 3, 5, MOST - 3, 1]));
    }

    #[test]
    fn numbers_compare_from_the_highest_word() {
        assert!(Whole([0, 0, 1, 0]) > Whole([0, 0, 0, MOST]));
        assert!(Whole([1, 0, 0, 0]) > Whole([0, MOST, MOST, MOST]));
        assert!(Whole::ZERO < Whole::ONE);
    }

    #[test]
    #[should_panic(expected = "below 2²⁵⁶")]
    fn a_number_that_does_not_fit_is_no_number() {
        Whole([MOST; 4]).plus(Whole::ONE);
    }
}
