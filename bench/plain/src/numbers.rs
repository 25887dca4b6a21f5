//! Sets of numbers below 64: routes or sections.

/// A set of numbers below 64. A number above is never in it.
#[derive(Clone, Copy, Debug, Default, PartialEq, Eq)]
pub struct Numbers(u64);

impl Numbers {
    pub fn insert(&mut self, number: u8) {
        self.0 |= 1 << number;
    }

    pub fn remove(&mut self, number: u8) {
        self.0 &= !(1 << number);
    }

    pub fn contains(self, number: u8) -> bool {
        number < 64 && self.0 >> number & 1 == 1
    }

    pub fn is_empty(self) -> bool {
        self.0 == 0
    }

    pub fn union(self, other: Numbers) -> Numbers {
        Numbers(self.0 | other.0)
    }

    pub fn shared_with(self, other: Numbers) -> Numbers {
        Numbers(self.0 & other.0)
    }

    pub fn without(self, other: Numbers) -> Numbers {
        Numbers(self.0 & !other.0)
    }
}

impl FromIterator<u8> for Numbers {
    fn from_iter<I: IntoIterator<Item = u8>>(items: I) -> Numbers {
        let mut numbers = Numbers::default();
        for number in items {
            numbers.insert(number);
        }
        numbers
    }
}
