//! A small generator of its own (splitmix64).

pub struct Random(pub u64);

impl Random {
    pub fn next(&mut self) -> u32 {
        self.0 = self.0.wrapping_add(0x9e37_79b9_7f4a_7c15);
        let mut z = self.0;
        z = (z ^ (z >> 30)).wrapping_mul(0xbf58_476d_1ce4_e5b9);
        z = (z ^ (z >> 27)).wrapping_mul(0x94d0_49bb_1331_11eb);
        ((z ^ (z >> 31)) >> 32) as u32
    }

    /// A number from `low` to `high`, both included.
    pub fn between(&mut self, low: u32, high: u32) -> u32 {
        low + self.next() % (high - low + 1)
    }

    /// A number below `size`.
    pub fn below(&mut self, size: u32) -> u32 {
        self.next() % size
    }

    pub fn one_in(&mut self, size: u32) -> bool {
        self.below(size) == 0
    }

    pub fn index(&mut self, length: usize) -> usize {
        self.next() as usize % length
    }

    pub fn pick<T: Copy>(&mut self, from: &[T]) -> T {
        from[self.index(from.len())]
    }

    pub fn shuffle<T>(&mut self, items: &mut [T]) {
        for last in (1..items.len()).rev() {
            items.swap(last, self.index(last + 1));
        }
    }

    /// A strip's seed: now and then a special one.
    pub fn seed(&mut self) -> u32 {
        match self.between(0, 7) {
            0 => self.pick(&[0, 1, 2, 0x7fff_ffff, 0x8000_0000, u32::MAX - 1, u32::MAX]),
            1 => self.between(0, 1000),
            2 => u32::MAX - self.between(0, 1000),
            _ => self.next(),
        }
    }

    /// Mostly a number below `limit`, else one at it or above it.
    pub fn near(&mut self, limit: u32) -> u32 {
        match self.below(8) {
            0 => limit,
            1 => limit.saturating_add(self.between(1, 300)),
            2 => self.pick(&[0, 255, 256, 65_535, 65_536, 0x8000_0000, u32::MAX]),
            _ => self.below(limit),
        }
    }

    /// One byte put in, taken out or changed.
    pub fn mutate(&mut self, text: &mut Vec<u8>, bytes: &[u8]) {
        let place = self.index(text.len());
        match self.below(3) {
            0 => text.insert(place, self.pick(bytes)),
            1 => drop(text.remove(place)),
            _ => text[place] = self.pick(bytes),
        }
    }

    /// The words in an unusual spelling that means the same: more blanks,
    /// leading zeros, a carriage return.
    pub fn respell(&mut self, line: &str) -> Vec<u8> {
        let mut text = self.blanks(0);
        for (place, word) in line.split(' ').enumerate() {
            if place > 0 {
                text.extend(self.blanks(1));
            }
            let parts: Vec<String> = word.split('/').map(|part| self.padded(part)).collect();
            text.extend(parts.join("/").into_bytes());
        }
        text.extend(self.blanks(0));
        if self.one_in(2) {
            text.push(b'\r');
        }
        text
    }

    fn blanks(&mut self, least: u32) -> Vec<u8> {
        let count = self.between(least, least + 2);
        (0..count).map(|_| self.pick(b" \t")).collect()
    }

    /// A number with zeros in front, ten digits at most.
    fn padded(&mut self, word: &str) -> String {
        let digits = word.bytes().all(|byte| byte.is_ascii_digit());
        if !digits || self.one_in(2) {
            return word.to_string();
        }
        let width = self.between(word.len() as u32, 10) as usize;
        format!("{word:0>width$}")
    }
}
