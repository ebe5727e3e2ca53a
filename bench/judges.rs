// Judges of so many parts, and the generator that they are drawn with.

// Every subset is a rising list of parts.
pub trait Judge {
    // 0 it doesn't fail, 1 it fails, 2 one can't tell.
    fn says(&self, subset: &[u64]) -> u64;
}

pub const FAILS: u64 = 1;
pub const CANNOT_TELL: u64 = 2;

// xorshift64*, from a fixed seed.
pub struct Random(u64);

impl Random {
    pub fn seeded() -> Random {
        Random(0x9e37_79b9_7f4a_7c15)
    }

    fn next(&mut self) -> u64 {
        self.0 ^= self.0 >> 12;
        self.0 ^= self.0 << 25;
        self.0 ^= self.0 >> 27;
        self.0.wrapping_mul(0x2545_f491_4f6c_dd1d)
    }

    // Below the bound, each number with the same chance but for less than 2^-32.
    pub fn below(&mut self, bound: u64) -> u64 {
        ((self.next() >> 32) * bound) >> 32
    }

    // Rising; each k of the numbers below n with the same chance.
    pub fn choose(&mut self, n: u64, k: u64) -> Vec<u64> {
        let mut numbers: Vec<u64> = (0..n).collect();
        for i in 0..k {
            let other = i + self.below(n - i);
            numbers.swap(i as usize, other as usize);
        }
        numbers.truncate(k as usize);
        numbers.sort_unstable();
        numbers
    }
}

// Fails what has all of these parts.
pub struct Together {
    pub parts: Vec<u64>,
    is_one: Vec<bool>,
}

impl Together {
    pub fn of(n: u64, parts: Vec<u64>) -> Together {
        let mut is_one = vec![false; n as usize];
        for &part in &parts {
            is_one[part as usize] = true;
        }
        Together { parts, is_one }
    }

    pub fn random(random: &mut Random, n: u64, k: u64) -> Together {
        Together::of(n, random.choose(n, k))
    }

    // The k parts lie in so many runs of consecutive numbers, which are as long as each other, or one longer. Each way
    // to place the runs has the same chance.
    pub fn in_runs(random: &mut Random, n: u64, k: u64, runs: u64) -> Together {
        let mut parts = Vec::new();
        let mut before = 0;
        for (i, place) in random.choose(n - k + runs, runs).into_iter().enumerate() {
            let i = i as u64;
            let start = place - i + before;
            let length = k / runs + u64::from(i < k % runs);
            parts.extend(start..start + length);
            before += length;
        }
        Together::of(n, parts)
    }
}

impl Judge for Together {
    fn says(&self, subset: &[u64]) -> u64 {
        let seen = subset
            .iter()
            .filter(|part| self.is_one[**part as usize])
            .count();
        u64::from(seen == self.parts.len())
    }
}

// The same where each part but the first needs one or two earlier ones: of what lacks one of those one can't tell.
pub struct Needing {
    needs: Vec<Vec<u64>>,
    together: Together,
}

impl Needing {
    pub fn random(random: &mut Random, n: u64, k: u64) -> Needing {
        let needs = (0..n)
            .map(|part| {
                let count = (1 + random.below(2)).min(part);
                random.choose(part, count)
            })
            .collect();
        Needing {
            needs,
            together: Together::random(random, n, k),
        }
    }

    // The parts that fail together, and what they need, and what that needs: the only lean subset.
    pub fn lean(&self) -> Vec<u64> {
        let mut is_in = self.together.is_one.clone();
        for part in (0..is_in.len()).rev() {
            if is_in[part] {
                for &need in &self.needs[part] {
                    is_in[need as usize] = true;
                }
            }
        }
        (0..is_in.len() as u64)
            .filter(|part| is_in[*part as usize])
            .collect()
    }
}

impl Judge for Needing {
    fn says(&self, subset: &[u64]) -> u64 {
        let mut is_in = vec![false; self.needs.len()];
        for &part in subset {
            is_in[part as usize] = true;
        }
        let mut needed = subset.iter().flat_map(|part| &self.needs[*part as usize]);
        if needed.all(|need| is_in[*need as usize]) {
            self.together.says(subset)
        } else {
            CANNOT_TELL
        }
    }
}

// Says of each subset what the bits of a number say, in a base: the digit at the place whose bits are the parts.
pub struct Table {
    pub digits: Vec<u64>,
}

impl Table {
    pub fn of_number(mut number: u64, base: u64, parts: u64) -> Table {
        let digits = (0..1 << parts)
            .map(|_| {
                let digit = number % base;
                number /= base;
                digit
            })
            .collect();
        Table { digits }
    }
}

impl Judge for Table {
    fn says(&self, subset: &[u64]) -> u64 {
        let place: u64 = subset.iter().map(|part| 1 << part).sum();
        self.digits[place as usize]
    }
}
