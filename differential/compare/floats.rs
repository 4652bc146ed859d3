//! The calls that give floats (document 02, P14). A float stands as its pattern, and is compared bit by bit.
use super::*;
use crate::reference::pattern;

/// What either call returns for each of its causes, in the order in which they are tested: N, a length, a coefficient.
const FLOAT_CAUSES: [u32; 3] = [1, 2, 3];

/// What a call fills: a float for each coefficient, or the highest and the lowest one.
#[derive(Clone, Copy, Debug)]
enum Filled {
    Floats,
    Pair,
}

impl Filled {
    /// The call that fills it.
    fn call(self) -> &'static str {
        match self {
            Filled::Floats => "floats",
            Filled::Pair => "highest_lowest",
        }
    }

    fn length(self, n: usize) -> usize {
        match self {
            Filled::Floats => n / 2,
            Filled::Pair => 2,
        }
    }
}

/// What a call is asked.
#[derive(Clone, Debug)]
struct Block {
    filled: Filled,
    n: usize,
    x: Vec<i32>,
    /// of the room
    length: usize,
}

impl Block {
    /// All as it should be.
    fn good(filled: Filled, x: &[i32]) -> Block {
        let n = 2 * x.len();
        Block { filled, n, x: x.to_vec(), length: filled.length(n) }
    }

    /// Brings about one of FLOAT_CAUSES. Several go from the last to the first, since N and the list then no longer say what the rest should be.
    fn damage(&mut self, random: &mut Random, cause: usize) {
        match (cause, random.below(2)) {
            (0, _) => self.n = random.pick(&WRONG_N),
            (1, 0) => self.length = wrong_length(random, self.length),
            (1, _) => self.x.resize(wrong_length(random, self.x.len()), 7),
            _ => self.x[random.below(self.n / 2)] = random.pick(&BEYOND),
        }
    }
}

/// The coefficient whose float has this pattern, if there is one.
fn meant(pattern: u64) -> Option<i32> {
    // -0.0 is none
    let float = Some(f64::from_bits(pattern)).filter(|float| *float != 0.0 || pattern == 0)?;
    let coefficient = float * 64.0;
    (coefficient.fract() == 0.0 && coefficient.abs() <= f64::from(COEFFICIENT_LIMIT)).then_some(coefficient as i32)
}

impl Compare {
    fn as_floats(&mut self, block: &Block) -> (u32, Vec<u64>) {
        let &Block { filled, n, length, .. } = block;
        // one entry in eight is a NaN, of either sign and with any payload
        let output = self.rubbish(length, |z| if z % 8 == 0 { z | 0x7ff0_0000_0000_0001 } else { z });
        // beyond the limit, so that an entry beside the list would be 3
        let mut lent = Lent::new(&block.x, i32::MAX);
        let library = |_: &[u8], out: &mut [u64]| match filled {
            Filled::Floats => library::floats(n, lent.part(), out),
            Filled::Pair => library::highest_lowest(n, lent.part(), out),
        };
        let told = self.call(filled.call(), block, &[], output, library, |bank, _, out| match filled {
            Filled::Floats => bank.floats(n, &block.x, out),
            Filled::Pair => bank.highest_lowest(n, &block.x, out),
        });
        if !lent.kept() {
            mismatch(filled.call(), block, &"wrote to its coefficients", &told);
        }
        told
    }

    /// Both calls on a block that is taken. Each float says its coefficient again, both of the pair occur among them, and none lies outside the pair.
    fn both_floats(&mut self, x: &[i32]) {
        let (number, floats) = self.as_floats(&Block::good(Filled::Floats, x));
        let (pair_number, pair) = self.as_floats(&Block::good(Filled::Pair, x));
        assert_eq!((number, pair_number), (0, 0));
        let said = floats.iter().map(|&z| meant(z)).collect::<Option<Vec<_>>>();
        if said.as_deref() != Some(x) {
            mismatch("floats, read back", &x, &floats, &said);
        }
        let [highest, lowest] = [pair[0], pair[1]].map(f64::from_bits);
        let outside = |&z: &u64| !(lowest..=highest).contains(&f64::from_bits(z));
        if !pair.iter().all(|z| floats.contains(z)) || floats.iter().any(outside) {
            mismatch("highest_lowest, among the floats", &x, &pair, &floats);
        }
    }

    /// Every power of two and what is beside it, at either sign, and the limits: at every place, among others and alone.
    fn float_sizes(&mut self, n: usize) {
        let near = (0..30).flat_map(|bit| [(1 << bit) - 1, 1 << bit, (1 << bit) + 1]).filter(|&z| z <= COEFFICIENT_LIMIT);
        let sizes: Vec<i32> = near.flat_map(|z: i32| [z, -z]).collect();
        for (at, &size) in (0..n / 2).flat_map(|at| sizes.iter().map(move |size| (at, size))) {
            let mut x = coefficients(&mut self.random, n / 2);
            x[at] = size;
            self.both_floats(&x);
            // all equal but for it
            let mut x = vec![self.random.pick(&sizes); n / 2];
            x[at] = size;
            self.both_floats(&x);
        }
    }

    /// The highest and the lowest at every pair of places, some with floats that differ in their last bits alone, or in their signs.
    fn float_places(&mut self, n: usize) {
        let m = n / 2;
        for (high, low) in (0..m).flat_map(|high| (0..m).map(move |low| (high, low))).filter(|(high, low)| high != low) {
            let middle = self.random.between(1 - i64::from(COEFFICIENT_LIMIT), i64::from(COEFFICIENT_LIMIT) - 1) as i32;
            for middle in [0, middle, COEFFICIENT_LIMIT - 1, 1 - COEFFICIENT_LIMIT] {
                let mut x = vec![middle; m];
                (x[high], x[low]) = (middle + 1, middle - 1);
                self.both_floats(&x);
                let told = self.as_floats(&Block::good(Filled::Pair, &x));
                assert_eq!(told, (0, vec![pattern(middle + 1), pattern(middle - 1)]));
            }
        }
    }

    /// What comes out of analysis, and anything in range.
    fn some_floats(&mut self, n: usize) {
        for _ in 0..1000 {
            let x = samples(&mut self.random, n);
            let (_, analysed) = self.analyse(Route::Direct, n, (LONG, LONG), &x, n / 2);
            self.both_floats(&analysed);
            let x = coefficients(&mut self.random, n / 2);
            self.both_floats(&x);
        }
    }

    /// Every choice of the causes: the first of them is returned.
    fn float_causes(&mut self, n: usize, filled: Filled) {
        for (chosen, due) in choices(&FLOAT_CAUSES).into_iter().flat_map(|choice| vec![choice; 200]) {
            let mut block = Block::good(filled, &coefficients(&mut self.random, n / 2));
            chosen.iter().rev().for_each(|&cause| block.damage(&mut self.random, cause));
            assert_eq!(self.as_floats(&block).0, due);
        }
    }

    /// Each number that refuses by itself, and those beside it that don't.
    fn refused_floats(&mut self, n: usize, filled: Filled) {
        let good = Block::good(filled, &coefficients(&mut self.random, n / 2));
        for length in 0..=n {
            let due = if length == filled.length(n) { 0 } else { 2 };
            assert_eq!(self.as_floats(&Block { length, ..good.clone() }).0, due);
            let mut block = good.clone();
            block.x.resize(length, 7);
            assert_eq!(self.as_floats(&block).0, if length == n / 2 { 0 } else { 2 });
        }
        for named in (0..300).chain(WRONG_N) {
            self.as_floats(&Block { n: named, ..good.clone() });
            // with the room that it would have
            self.as_floats(&Block { n: named, length: filled.length(named).min(300), ..good.clone() });
        }
        for (k, beyond) in (0..n / 2).flat_map(|k| BEYOND.map(|beyond| (k, beyond))) {
            let mut block = good.clone();
            block.x[k] = beyond;
            assert_eq!(self.as_floats(&block).0, 3);
        }
    }

    pub fn floats(&mut self, n: usize) {
        self.float_sizes(n);
        self.float_places(n);
        self.some_floats(n);
        for filled in [Filled::Floats, Filled::Pair] {
            self.float_causes(n, filled);
            self.refused_floats(n, filled);
        }
    }
}
