//! Samples, coefficients and streams to call with.
use crate::reference::{offered, tail_limit, Bank, Recording, Route, Shapes};
use crate::reference::{BY_BLOCK, BY_FREQUENCY, COEFFICIENT_LIMIT, EXPECTED, HOPS, LONG, SHAPE, SHORT, STATE, STORAGE, TAIL};
use std::collections::HashMap;

pub const ROUTES: [Route; 3] = [Route::Direct, Route::Short, Route::Double];

/// The routes that are offered at length n.
pub fn routes_of(n: usize) -> Vec<Route> {
    ROUTES.into_iter().filter(|&route| offered(route, n)).collect()
}

pub const SHAPES: [u32; 2] = [LONG, SHORT];

/// Every pair of them.
pub const PAIRS: [Shapes; 4] = [(LONG, LONG), (LONG, SHORT), (SHORT, LONG), (SHORT, SHORT)];

/// Numbers that are no shape, some equal to one in their low bits.
pub const NO_SHAPES: [u32; 8] = [2, 3, 256, 257, 1 << 16, 1 << 31, (1 << 31) + 1, u32::MAX];

/// Every pair of numbers, shapes and others.
pub fn pairs_of_numbers() -> Vec<Shapes> {
    let numbers = SHAPES.into_iter().chain(NO_SHAPES);
    numbers.clone().flat_map(|left| numbers.clone().map(move |right| (left, right))).collect()
}

pub const ORDERS: [u32; 2] = [BY_BLOCK, BY_FREQUENCY];

/// Numbers that are no order: an order has the numbers that a shape has.
pub const NO_ORDERS: [u32; 8] = NO_SHAPES;

/// A recording in each order.
pub fn in_orders(n: usize, hops: usize) -> [Recording; 2] {
    ORDERS.map(|order| Recording { n, hops, order })
}

/// Numbers of hops that are none, whose products by small numbers wrap round to small ones.
pub const WRAPPING_HOPS: [usize; 6] = [0, 1 << 62, 1 << 63, (1 << 63) + 1, (1 << 62) + 3, usize::MAX];

/// A number of hops that differs from the stated one: beside it, one that is none, or one that is equal to it in its low bits.
pub fn wrong_hops(random: &mut Random, hops: usize) -> usize {
    random.pick(&[0, hops + 1, hops - 1, HOPS + 1, (1 << 32) + hops, 1 << 62, 1 << 63, usize::MAX])
}

/// Every choice of the causes of a call, and the number that is due: that of the first.
pub fn choices(causes: &[u32]) -> Vec<(Vec<usize>, u32)> {
    let chosen = |choice: usize| (0..causes.len()).filter(|cause| choice >> cause & 1 == 1).collect::<Vec<_>>();
    (0..1 << causes.len()).map(chosen).map(|choice| (choice.clone(), choice.first().map_or(0, |&cause| causes[cause]))).collect()
}

/// Numbers by splitmix64.
pub struct Random(u64);

impl Random {
    pub fn new(seed: u64) -> Random {
        Random(seed)
    }

    pub fn bits(&mut self) -> u64 {
        self.0 = self.0.wrapping_add(0x9e37_79b9_7f4a_7c15);
        let z = (self.0 ^ (self.0 >> 30)).wrapping_mul(0xbf58_476d_1ce4_e5b9);
        let z = (z ^ (z >> 27)).wrapping_mul(0x94d0_49bb_1331_11eb);
        z ^ (z >> 31)
    }

    pub fn below(&mut self, count: usize) -> usize {
        (u128::from(self.bits()) * count as u128 >> 64) as usize
    }

    /// A number from low to high, the ends included.
    pub fn between(&mut self, low: i64, high: i64) -> i64 {
        let count = (i128::from(high) - i128::from(low) + 1) as u128;
        (i128::from(low) + (u128::from(self.bits()) * count >> 64) as i128) as i64
    }

    pub fn pick<T: Copy>(&mut self, from: &[T]) -> T {
        from[self.below(from.len())]
    }

    /// One that differs from the stated one.
    pub fn other<T: Copy + PartialEq>(&mut self, than: T, from: &[T]) -> T {
        let others: Vec<T> = from.iter().copied().filter(|&z| z != than).collect();
        self.pick(&others)
    }

    pub fn one_in(&mut self, count: usize) -> bool {
        self.below(count) == 0
    }

    pub fn shuffle<T>(&mut self, list: &mut [T]) {
        for i in (1..list.len()).rev() {
            list.swap(i, self.below(i + 1));
        }
    }
}

/// Sizes that lie at an end or beside one.
const IMPULSES: [i16; 10] = [1, -1, 2, -3, 127, -256, 16384, -16385, 32767, -32768];

/// The sample of the largest size with the sign of z.
pub fn loudest(z: i128) -> i16 {
    if z < 0 {
        i16::MIN
    } else {
        i16::MAX
    }
}

/// Blocks of n samples with a reason of their own: silence, the loudest, one coefficient at its largest, impulses at every place, and the
/// samples whose windowed value is an exact half.
pub fn special_blocks(bank: &Bank, n: usize, shapes: Shapes) -> Vec<Vec<i16>> {
    let mut blocks = vec![vec![0; n], vec![i16::MIN; n], vec![i16::MAX; n], vec![1; n], vec![-1; n]];
    for period in [1, 2, 3, n / 4, n / 2] {
        let square: Vec<i16> = (0..n).map(|i| if i / period % 2 == 0 { i16::MIN } else { i16::MAX }).collect();
        blocks.push(square.iter().map(|&s| !s).collect());
        blocks.push(square);
    }
    for k in 0..n / 2 {
        blocks.push((0..n).map(|i| loudest(bank.k(n, i, k))).collect());
        blocks.push((0..n).map(|i| loudest(-bank.k(n, i, k))).collect());
    }
    let impulse = |i: usize, size: i16| {
        let mut x = vec![0; n];
        x[i] = size;
        x
    };
    for i in 0..n {
        blocks.extend(IMPULSES.map(|size| impulse(i, size)));
        let w = bank.w(n, shapes, i);
        let half = |s: &i16| (w * i128::from(*s)).rem_euclid(1 << 18) == 1 << 17;
        blocks.extend((i16::MIN..=i16::MAX).filter(half).take(12).map(|size| impulse(i, size)));
    }
    blocks
}

/// The three places of n inputs that a split takes together.
fn group(n: usize, i: usize) -> [usize; 3] {
    [n / 3 - 1 - i, 2 * n / 3 - 1 - i, n - 1 - i]
}

/// Of two lists of sums, a few pairs whose sum modulo b is b/2.
fn half_pairs(first: &[i128], second: &[i128], b: i128) -> Vec<(usize, usize)> {
    let at: HashMap<i128, usize> = second.iter().enumerate().map(|(j, z)| (z.rem_euclid(b), j)).collect();
    let partner = |(i, z): (usize, &i128)| at.get(&(b / 2 - z).rem_euclid(b)).map(|&j| (i, j));
    first.iter().enumerate().filter_map(partner).take(6).collect()
}

/// Blocks of which some coefficient is rounded from an exact half. A sum is linear in the groups, so two lists of blocks with one group each are
/// searched for pairs that meet.
pub fn half_blocks(bank: &Bank, random: &mut Random, route: Route, n: usize, shapes: Shapes) -> Vec<Vec<i16>> {
    let mut list = |i: usize| -> Vec<Vec<i16>> {
        let mut one = || {
            let mut x = vec![0; n];
            group(n, i).into_iter().for_each(|place| x[place] = random.bits() as i16);
            x
        };
        (0..20_000).map(|_| one()).collect()
    };
    // by the double route they are in two groups of its second split, too
    let lists = [list(0), list(n / 3 - 1)];
    let sums = lists.each_ref().map(|list| list.iter().map(|x| bank.sums(route, n, shapes, x)).collect::<Vec<_>>());
    let mut blocks = Vec::new();
    for k in 0..n / 2 {
        let column = |s: &[Vec<(i128, i128)>]| s.iter().map(|row| row[k].0).collect::<Vec<_>>();
        for (i, j) in half_pairs(&column(&sums[0]), &column(&sums[1]), sums[0][0][k].1) {
            blocks.push((0..n).map(|place| lists[0][i][place] + lists[1][j][place]).collect());
        }
    }
    blocks
}

/// Blocks of which one of the sums that `tops` gives is rounded by 2^26 from an exact half. They depend on the samples at these places alone, of which
/// the first two are searched for pairs that meet, and the rest are 0; other samples stand about them, so that it shows.
fn rounded_halves<const SUMS: usize>(random: &mut Random, n: usize, places: &[usize], tops: impl Fn(&[i16]) -> [i128; SUMS]) -> Vec<Vec<i16>> {
    let mut list = |place: usize| -> Vec<Vec<i16>> {
        let mut one = || {
            let mut x = vec![0; n];
            x[place] = random.bits() as i16;
            x
        };
        (0..12_000).map(|_| one()).collect()
    };
    let lists = [list(places[0]), list(places[1])];
    let sums = lists.each_ref().map(|list| list.iter().map(|x| tops(x)).collect::<Vec<_>>());
    let mut blocks = Vec::new();
    for which in 0..SUMS {
        let column = |s: &[[i128; SUMS]]| s.iter().map(|row| row[which]).collect::<Vec<_>>();
        for (p, q) in half_pairs(&column(&sums[0]), &column(&sums[1]), 1 << 26) {
            for _ in 0..8 {
                let mut x: Vec<i16> = (0..n).map(|_| random.between(-200, 200) as i16).collect();
                places.iter().for_each(|&place| x[place] = lists[0][p][place] + lists[1][q][place]);
                blocks.push(x);
            }
        }
    }
    blocks
}

/// Blocks of which some rB or rC is rounded from an exact half.
pub fn split_half_blocks(bank: &Bank, random: &mut Random, n: usize, shapes: Shapes) -> Vec<Vec<i16>> {
    let at = |i: usize| rounded_halves(random, n, &group(n, i), |x| bank.split_sums(n, shapes, x, i));
    (0..n / 3).flat_map(at).collect()
}

/// The same of the splits of the three parts. A group of theirs has nine samples, three groups of the block, and those that are searched lie in two.
pub fn second_half_blocks(bank: &Bank, random: &mut Random, n: usize, shapes: Shapes) -> Vec<Vec<i16>> {
    let at = |i: usize| {
        let [first, second, third] = group(n / 3, i).map(|place| group(n, place));
        let places = [first[0], second[1], first[1], first[2], second[0], second[2], third[0], third[1], third[2]];
        rounded_halves(random, n, &places, |x| bank.second_split_sums(n, shapes, x, i))
    };
    (0..n / 9).flat_map(at).collect()
}

/// Samples of one kind: loudest, quiet, random, an impulse, or a mixture.
pub fn samples(random: &mut Random, count: usize) -> Vec<i16> {
    let top = random.pick(&[0, 1, 2, 10, 300, 8000, 32767]);
    match random.below(5) {
        0 => (0..count).map(|_| random.pick(&[i16::MIN, i16::MAX])).collect(),
        1 => (0..count).map(|_| random.pick(&[i16::MIN, i16::MAX, 0, 1, -1])).collect(),
        2 if count > 0 => {
            let mut x = vec![0; count];
            x[random.below(count)] = random.pick(&IMPULSES);
            x
        }
        _ => (0..count).map(|_| random.between(-top - 1, top) as i16).collect(),
    }
}

/// Sets of n/2 coefficients with a reason of their own: each end, U at its largest at every place, and one coefficient at powers of two, where
/// U meets exact halves.
pub fn special_coefficients(bank: &Bank, n: usize) -> Vec<Vec<i32>> {
    let m = n / 2;
    let mut sets = vec![vec![0; m], vec![COEFFICIENT_LIMIT; m], vec![-COEFFICIENT_LIMIT; m]];
    for i in 0..n {
        for size in [COEFFICIENT_LIMIT, -COEFFICIENT_LIMIT, 1 << 27, -1] {
            sets.push((0..m).map(|k| if bank.k(n, i, k) < 0 { -size } else { size }).collect());
        }
    }
    for k in 0..m {
        for bit in 0..30 {
            for factor in [1, -1, 3, -3] {
                let size = factor * (1i64 << bit);
                if size.abs() <= i64::from(COEFFICIENT_LIMIT) {
                    let mut x = vec![0; m];
                    x[k] = size as i32;
                    sets.push(x);
                }
            }
        }
    }
    sets
}

pub fn coefficients(random: &mut Random, count: usize) -> Vec<i32> {
    let top = random.pick(&[0, 1, 64, 10_000, 2_000_000, 150_994_944, COEFFICIENT_LIMIT]);
    match random.below(4) {
        0 => (0..count).map(|_| random.pick(&[-top, top])).collect(),
        1 => (0..count).map(|_| random.pick(&[-COEFFICIENT_LIMIT, 0, 1, COEFFICIENT_LIMIT])).collect(),
        _ => (0..count).map(|_| random.between(-i64::from(top), i64::from(top)) as i32).collect(),
    }
}

/// Coefficients beyond the limit, the nearest first.
pub const BEYOND: [i32; 6] = [COEFFICIENT_LIMIT + 1, -COEFFICIENT_LIMIT - 1, COEFFICIENT_LIMIT * 2, -COEFFICIENT_LIMIT * 2, i32::MAX, i32::MIN];

/// A length that differs from the stated one.
pub fn wrong_length(random: &mut Random, length: usize) -> usize {
    random.other(length, &[0, 1, length.saturating_sub(1), length + 1, length / 2, 2 * length, length + STORAGE])
}

/// The number that a state expects; of a forged one its low bits, which no step may take for it.
pub fn expected(state: &[i64]) -> u32 {
    state.get(EXPECTED).map_or(0, |&number| number as u32)
}

/// A number that a state does not expect: beside the one that it does, at an end, or alike in half of its bits.
pub fn wrong_number(random: &mut Random, state: &[i64]) -> u32 {
    let right = expected(state);
    let any = random.bits() as u32;
    let others = [0, 1, right.wrapping_sub(1), right.wrapping_add(1), right ^ 1 << 31, right & 0xffff, right ^ 1 << 16, u32::MAX, any];
    random.other(right, &others)
}

/// The shapes of a block whose left one is what a state expects, or of a forged one its low bits, and whose right one is either.
pub fn expected_shapes(random: &mut Random, state: &[i64]) -> Shapes {
    (state.get(SHAPE).map_or(LONG, |&shape| shape as u32), random.pick(&SHAPES))
}

/// Shapes that a state which expects one refuses: a number that is none, on either side or on both, or the other one on the left.
pub fn wrong_shapes(random: &mut Random, state: &[i64]) -> Shapes {
    let (left, right) = expected_shapes(random, state);
    match random.below(4) {
        0 => (random.pick(&NO_SHAPES), right),
        1 => (left, random.pick(&NO_SHAPES)),
        2 => (random.pick(&NO_SHAPES), random.pick(&NO_SHAPES)),
        _ => (random.other(left, &SHAPES), right),
    }
}

/// The last number of a block.
pub const LAST: i64 = u32::MAX as i64;

/// Expected numbers to forge: about either end of a block's number, and beyond it with one in the low bits.
pub const FORGED_NUMBERS: [i64; 20] = [
    1,
    65_535,
    (1 << 31) - 1,
    1 << 31,
    LAST - 1,
    LAST,
    LAST + 1,
    LAST + 2,
    LAST + 8,
    (1 << 33) - 1,
    1 << 40,
    i64::MAX - LAST,
    i64::MAX,
    -1,
    -2,
    -LAST,
    -LAST - 1,
    -LAST - 2,
    i64::MIN,
    i64::MIN + 7,
];

/// Expected shapes to forge: beside the two that there are, and beyond them with one in the low bits.
pub const FORGED_SHAPES: [i64; 16] = [
    2,
    3,
    256,
    257,
    1 << 31,
    LAST,
    LAST + 1,
    LAST + 2,
    i64::MAX - 1,
    i64::MAX,
    -1,
    -2,
    -LAST,
    -LAST - 1,
    i64::MIN,
    i64::MIN + 1,
];

/// The shapes of the joints about so many blocks, from left to right: a long one, which a fresh stream expects, and behind it short ones, both in
/// turn, or any.
pub fn joints(random: &mut Random, blocks: usize) -> Vec<u32> {
    let kind = random.below(3);
    let mut shape = |j: usize| match kind {
        0 => SHORT,
        1 => SHAPES[j % 2],
        _ => random.pick(&SHAPES),
    };
    let behind = (1..=blocks).map(&mut shape);
    [LONG].into_iter().chain(behind).collect()
}

/// The numbers of so many blocks, at least two, in orders in which they may arrive: shuffled, repeated, late, backwards. Each holds all of them.
pub fn arrivals(random: &mut Random, count: usize) -> Vec<Vec<usize>> {
    let in_order: Vec<usize> = (0..count).collect();
    let mut shuffled = in_order.clone();
    random.shuffle(&mut shuffled);
    let repeated = in_order.iter().flat_map(|&b| vec![b; 1 + random.below(3)]).collect();
    let mut both = [&shuffled[..], &in_order, &shuffled].concat();
    random.shuffle(&mut both);
    // one block lets others pass
    let mut late = in_order.clone();
    let first = random.below(count - 1);
    let block = late.remove(first);
    late.insert(first + 1 + random.below(count - 1 - first), block);
    let backwards = in_order.iter().rev().copied().collect();
    vec![in_order, shuffled, repeated, both, late, backwards]
}

/// Block lengths that are not tabled, some equal to a tabled one in their low bits.
pub const WRONG_N: [usize; 19] = [
    0,
    1,
    6,
    11,
    13,
    18,
    48,
    71,
    73,
    107,
    144,
    217,
    432,
    (1 << 32) + 12,
    (1 << 40) + 36,
    (1 << 63) + 72,
    (1 << 32) + 216,
    usize::MAX,
    usize::MAX - 11,
];

/// Lengths of a state that differ from the stated one, among them those that end about what it expects, and with the tail of N = 72 alone.
pub const WRONG_STATE: [usize; 8] = [0, 1, 2, 3, 39, STATE - 1, STATE + 1, 2 * STATE];

/// A state as a stream may come to hold: N, an expected number that a block bears, an expected shape, a tail within its limit, and anything in
/// storage from M on.
pub fn state(random: &mut Random, n: usize) -> Vec<i64> {
    let limit = tail_limit(n);
    let top = random.pick(&[0, 1, n as i64 * (1 << 29), n as i64 * (1 << 45), limit]);
    let any = random.between(0, LAST);
    let mut state = vec![n as i64, random.pick(&[0, 1, 2, any, LAST - 1, LAST]), i64::from(random.pick(&SHAPES))];
    for i in 0..STORAGE {
        state.push(if i >= n / 2 {
            random.bits() as i64
        } else if random.one_in(9) {
            random.pick(&[limit, -limit])
        } else {
            random.between(-top, top)
        });
    }
    state
}

/// What a step is called with.
pub struct Offer {
    pub state: Vec<i64>,
    pub number: u32,
    pub shapes: Shapes,
    pub x: Vec<i32>,
    pub length: usize,
}

/// What a step returns for each of its causes, in the order in which they are tested: the state's length, its N and tail, the block's number, its
/// shapes, the length of a buffer, a coefficient.
pub const CAUSES: [u32; 6] = [2, 4, 7, 8, 2, 3];

impl Offer {
    /// The block that a sound state expects.
    pub fn good(random: &mut Random, state: &[i64]) -> Offer {
        let m = state[0] as usize / 2;
        Offer {
            state: state.to_vec(),
            number: expected(state),
            shapes: expected_shapes(random, state),
            x: coefficients(random, m),
            length: m,
        }
    }

    /// Brings about one of CAUSES. Several go from the last to the first, since a damaged state no longer says what the rest should be.
    pub fn damage(&mut self, random: &mut Random, cause: usize) {
        match cause {
            0 => self.state.resize(random.pick(&WRONG_STATE), 5),
            1 => damage_stream(random, &mut self.state),
            2 => self.number = wrong_number(random, &self.state),
            3 if random.one_in(4) => self.state[SHAPE] = random.pick(&FORGED_SHAPES),
            3 => self.shapes = wrong_shapes(random, &self.state),
            4 if random.one_in(2) => self.length = wrong_length(random, self.length),
            4 => self.x.resize(wrong_length(random, self.length), 0),
            _ => {
                let at = random.below(self.x.len());
                self.x[at] = random.pick(&BEYOND);
            }
        }
    }
}

/// Puts an N that is not tabled in a state, or an entry of the tail beyond its limit.
fn damage_stream(random: &mut Random, state: &mut [i64]) {
    let n = state[0];
    let limit = tail_limit(n as usize);
    if random.one_in(2) {
        state[0] = random.pick(&[0, 48, -n, n + (1 << 32), i64::MIN]);
    } else {
        state[TAIL + random.below(n as usize / 2)] = random.pick(&[limit + 1, -limit - 1, i64::MAX, i64::MIN]);
    }
}
