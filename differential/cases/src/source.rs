//! Where a generator takes its choices from.
//!
//! A generator draws numbers below a bound. They come from a seeded generator, from a list, or from
//! an enumeration of all lists. What was drawn is kept: a case can be made again from it, and a case
//! that shows a difference is made smaller by making that list smaller.

/// xorshift64*.
struct Random(u64);

impl Random {
    fn new(seed: u64) -> Random {
        // Spreads neighbouring seeds; the state must not be 0.
        let mixed = seed.wrapping_add(1).wrapping_mul(0x9e37_79b9_7f4a_7c15);
        Random((mixed ^ (mixed >> 29)).max(1))
    }

    fn next(&mut self) -> u64 {
        self.0 ^= self.0 >> 12;
        self.0 ^= self.0 << 25;
        self.0 ^= self.0 >> 27;
        self.0.wrapping_mul(0x2545_f491_4f6c_dd1d) >> 11
    }
}

enum From {
    Random,
    List(Vec<u64>),
    /// Each choice with its bound.
    Every(Vec<(u64, u64)>),
}

pub struct Source {
    from: From,
    random: Random,
    at: usize,
    taken: Vec<u64>,
}

impl Source {
    pub fn random(seed: u64) -> Source {
        Source { from: From::Random, random: Random::new(seed), at: 0, taken: Vec::new() }
    }

    /// The choices of a list, each modulo its bound, and 0 after its end.
    pub fn list(choices: &[u64]) -> Source {
        Source { from: From::List(choices.to_vec()), ..Source::random(0) }
    }

    /// All lists of choices, one after another: see `advance`. Bytes drawn by `byte` are random; a choice
    /// whose bound goes by them is taken modulo it.
    pub fn every(seed: u64) -> Source {
        Source { from: From::Every(Vec::new()), ..Source::random(seed) }
    }

    /// What was drawn since the beginning or the last `advance`.
    pub fn taken(&self) -> &[u64] {
        &self.taken
    }

    /// Goes to the next list of an enumeration; false after the last. Otherwise forgets what was
    /// drawn, and is true.
    pub fn advance(&mut self) -> bool {
        self.at = 0;
        self.taken.clear();
        if let From::Every(choices) = &mut self.from {
            while let Some((choice, bound)) = choices.pop() {
                if choice + 1 < bound {
                    choices.push((choice + 1, bound));
                    return true;
                }
            }
            return false;
        }
        true
    }

    /// A number below `bound`, which is not 0.
    pub fn below(&mut self, bound: u64) -> u64 {
        let at = self.at;
        self.at += 1;
        let choice = match &mut self.from {
            From::Random => self.random.next() % bound,
            From::List(choices) => choices.get(at).map_or(0, |&choice| choice % bound),
            From::Every(choices) => {
                if at == choices.len() {
                    choices.push((0, bound));
                }
                choices[at].0 % bound
            }
        };
        self.taken.push(choice);
        choice
    }

    /// A byte of data. An enumeration does not enumerate it.
    pub fn byte(&mut self) -> u8 {
        if let From::Every(_) = self.from {
            let byte = self.random.next() % 256;
            self.taken.push(byte);
            return byte as u8;
        }
        self.below(256) as u8
    }

    /// `below` for a field of the library's types.
    pub fn number(&mut self, bound: u64) -> u32 {
        u32::try_from(self.below(bound)).expect("a bound of at most 32 bits")
    }
}
