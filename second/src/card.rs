//! The card that a list is for, and the periods that its timer has.

#[derive(Clone, Copy, PartialEq, Eq, Hash, Debug)]
pub enum Card {
    Wide,
    Small,
}

/// Every card, each at its number.
pub const CARDS: [Card; 2] = [Card::Wide, Card::Small];

/// The periods of the small card's timer, as the request lists them.
pub const SMALL_PERIODS: [u64; 20] = [
    1, 2, 3, 4, 5, 6, 8, 10, 12, 15, 16, 20, 24, 30, 40, 48, 60, 80, 120, 240,
];

pub const LONGEST_SMALL_PERIOD: u64 = SMALL_PERIODS[SMALL_PERIODS.len() - 1];

impl Card {
    pub fn of(number: u64) -> Option<Card> {
        let at = usize::try_from(number).ok()?;
        CARDS.get(at).copied()
    }

    pub fn number(self) -> u64 {
        self as u64
    }

    /// Whether its timer has this period; a wide card's has any.
    pub fn times(self, period: u64) -> bool {
        self == Card::Wide || SMALL_PERIODS.contains(&period)
    }
}

#[cfg(test)]
mod tests {
    use super::*;

    #[test]
    fn the_small_cards_periods_are_the_divisors_of_240() {
        let divisors: Vec<u64> = (1..=240).filter(|divisor| 240 % divisor == 0).collect();
        assert_eq!(SMALL_PERIODS[..], divisors);
    }

    #[test]
    fn there_are_two_cards() {
        for card in CARDS {
            assert_eq!(Card::of(card.number()), Some(card));
        }
        for number in [2, 256, 257, 1 << 32, u64::MAX] {
            assert_eq!(Card::of(number), None);
        }
    }
}
