//! Random numbers from a seed (splitmix64), and the walk over a list of planned cases.

pub struct Rng(u64);

impl Rng {
    pub fn new(seed: u64) -> Rng {
        Rng(seed)
    }

    fn next(&mut self) -> u64 {
        self.0 = self.0.wrapping_add(0x9e37_79b9_7f4a_7c15);
        let mut z = self.0;
        z = (z ^ (z >> 30)).wrapping_mul(0xbf58_476d_1ce4_e5b9);
        z = (z ^ (z >> 27)).wrapping_mul(0x94d0_49bb_1331_11eb);
        z ^ (z >> 31)
    }

    /// 32 random bits.
    pub fn bits(&mut self) -> u32 {
        (self.next() >> 32) as u32
    }

    /// 0 to n - 1.
    pub fn below(&mut self, n: usize) -> usize {
        ((u64::from(self.bits()) * n as u64) >> 32) as usize
    }

    /// True once in n times.
    pub fn once_in(&mut self, n: usize) -> bool {
        self.below(n) == 0
    }

    /// From `low` to `high`.
    pub fn between(&mut self, low: f64, high: f64) -> f64 {
        let unit = (self.next() >> 11) as f64 / (1u64 << 53) as f64;
        low + unit * (high - low)
    }

    /// A whole number from `low` to `high`, both included.
    pub fn whole(&mut self, low: i32, high: i32) -> i32 {
        low + self.below((high - low + 1) as usize) as i32
    }

    /// 1 or -1.
    pub fn sign(&mut self) -> f32 {
        if self.once_in(2) {
            -1.0
        } else {
            1.0
        }
    }

    pub fn pick<T: Copy>(&mut self, pool: &[T]) -> T {
        pool[self.below(pool.len())]
    }
}

/// A walk over the places 0 to total - 1. It goes round by long steps, so a short walk is spread
/// over the whole list, and `total` steps meet every place once.
pub struct Walk {
    total: usize,
    step: usize,
    at: usize,
    taken: usize,
}

impl Walk {
    pub fn new(total: usize, rng: &mut Rng) -> Walk {
        let mut step = (total * 618 / 1000).max(1);
        while gcd(step, total) != 1 {
            step += 1;
        }
        Walk {
            total,
            step,
            at: rng.below(total),
            taken: 0,
        }
    }

    /// True when every place has been met.
    pub fn is_through(&self) -> bool {
        self.taken >= self.total
    }

    pub fn next(&mut self) -> usize {
        self.taken += 1;
        self.at = (self.at + self.step) % self.total;
        self.at
    }

    /// The next place, half of the times until every place has been met, then once in eight times.
    pub fn turn(&mut self, rng: &mut Rng) -> Option<usize> {
        let planned = rng.once_in(if self.is_through() { 8 } else { 2 });
        planned.then(|| self.next())
    }
}

fn gcd(a: usize, b: usize) -> usize {
    if b == 0 {
        a
    } else {
        gcd(b, a % b)
    }
}

/// How many plans set one part.
pub fn singles<const K: usize>(ways: &[usize; K]) -> usize {
    ways.iter().sum()
}

/// How many plans there are over parts with so many ways each: one part set, or two.
pub fn plans<const K: usize>(ways: &[usize; K]) -> usize {
    let mut total = 0;
    for (i, first) in ways.iter().enumerate() {
        total += first;
        total += ways[i + 1..]
            .iter()
            .map(|second| first * second)
            .sum::<usize>();
    }
    total
}

/// The plan at a place: for each part the way it is set, or `None` for "random and good".
/// First each way of each part alone, then every pair of ways of two parts.
pub fn plan<const K: usize>(ways: &[usize; K], place: usize) -> [Option<usize>; K] {
    let mut plan = [None; K];
    let mut rest = place;
    for (i, first) in ways.iter().enumerate() {
        if rest < *first {
            plan[i] = Some(rest);
            return plan;
        }
        rest -= first;
    }
    for i in 0..K {
        for j in i + 1..K {
            if rest < ways[i] * ways[j] {
                plan[i] = Some(rest / ways[j]);
                plan[j] = Some(rest % ways[j]);
                return plan;
            }
            rest -= ways[i] * ways[j];
        }
    }
    plan
}

/// A random plan: each part is set once in `n` times.
pub fn random_plan<const K: usize>(
    ways: &[usize; K],
    n: usize,
    rng: &mut Rng,
) -> [Option<usize>; K] {
    let mut plan = [None; K];
    for (i, count) in ways.iter().enumerate() {
        if rng.once_in(n) {
            plan[i] = Some(rng.below(*count));
        }
    }
    plan
}
