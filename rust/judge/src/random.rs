//! A small seeded generator of numbers (splitmix64): the same seed gives the same numbers on every machine.

/// The state of the generator.
#[derive(Clone, Debug)]
pub struct Random {
    state: u64,
}

impl Random {
    /// The generator that starts from `seed`.
    pub fn new(seed: u64) -> Random {
        Random { state: seed }
    }

    /// The generator of case number `index` in the run of `seed`: cases do not depend on one another.
    pub fn of_case(seed: u64, index: u64) -> Random {
        let start = Random::new(seed).word();
        Random::new(Random::new(start ^ index.wrapping_mul(0xD134_2543_DE82_EF95)).word())
    }

    /// Sixty-four bits.
    pub fn word(&mut self) -> u64 {
        self.state = self.state.wrapping_add(0x9E37_79B9_7F4A_7C15);
        let mut word = self.state;
        word = (word ^ (word >> 30)).wrapping_mul(0xBF58_476D_1CE4_E5B9);
        word = (word ^ (word >> 27)).wrapping_mul(0x94D0_49BB_1331_11EB);
        word ^ (word >> 31)
    }

    /// A number below `bound`, which is not 0.
    pub fn below(&mut self, bound: usize) -> usize {
        (self.word() % bound as u64) as usize
    }

    /// A number from `low` to `high`, both included.
    pub fn between(&mut self, low: usize, high: usize) -> usize {
        low + self.below(high - low + 1)
    }

    /// True once in `often` times.
    pub fn once_in(&mut self, often: usize) -> bool {
        self.below(often) == 0
    }

    /// True in `percent` of a hundred times.
    pub fn percent(&mut self, percent: usize) -> bool {
        self.below(100) < percent
    }

    /// Any byte.
    pub fn byte(&mut self) -> u8 {
        self.word() as u8
    }

    /// `count` bytes of any kind.
    pub fn bytes(&mut self, count: usize) -> Vec<u8> {
        (0..count).map(|_| self.byte()).collect()
    }

    /// One of the choices.
    pub fn pick<T: Copy>(&mut self, choices: &[T]) -> T {
        choices[self.below(choices.len())]
    }

    /// One of the words of a list, which stand with `|` between.
    pub fn pick_word(&mut self, list: &'static [u8]) -> &'static [u8] {
        let count = list.split(|&byte| byte == b'|').count();
        let place = self.below(count);
        list.split(|&byte| byte == b'|').nth(place).expect("the list has so many words")
    }

    /// A place in `length` bytes to put something: the end as often as any other.
    pub fn place(&mut self, length: usize) -> usize {
        if self.once_in(2) {
            return length;
        }
        self.below(length + 1)
    }

    /// The place of one of the weights, each as often as it weighs.
    pub fn weighted(&mut self, weights: &[usize]) -> usize {
        let mut ticket = self.below(weights.iter().sum());
        for (place, &weight) in weights.iter().enumerate() {
            if ticket < weight {
                return place;
            }
            ticket -= weight;
        }
        unreachable!("the ticket is below the sum of the weights")
    }

    /// Puts the items in some order.
    pub fn shuffle<T>(&mut self, items: &mut [T]) {
        for place in (1..items.len()).rev() {
            let other = self.below(place + 1);
            items.swap(place, other);
        }
    }
}

#[cfg(test)]
mod tests {
    use super::Random;

    #[test]
    fn first_words_are_those_published_for_splitmix64() {
        let mut random = Random::new(1234567);
        let words: Vec<u64> = (0..3).map(|_| random.word()).collect();
        assert_eq!(words, [6457827717110365317, 3203168211198807973, 9817491932198370423]);
    }

    #[test]
    fn weights_of_zero_are_never_picked() {
        let mut random = Random::new(7);
        assert!((0..1000).all(|_| random.weighted(&[0, 3, 0, 1]) % 2 == 1));
    }
}
