//! Document 01, with P1, P2, P4 to P10 and P12 to P14 of document 02, written out anew: exact series, naive sums, rounding by size. It shares no table with any other file.

/// A natural number of any size, in base 2^64, lowest digit first.
#[derive(Clone)]
struct Natural(Vec<u64>);

impl Natural {
    fn from(z: u64) -> Natural {
        Natural(vec![z])
    }

    fn times(&self, factor: u64) -> Natural {
        let mut digits = Vec::with_capacity(self.0.len() + 1);
        let mut carry = 0u128;
        for &digit in &self.0 {
            carry += u128::from(digit) * u128::from(factor);
            digits.push(carry as u64);
            carry >>= 64;
        }
        digits.push(carry as u64);
        Natural(digits)
    }

    fn power(base: u64, exponent: usize) -> Natural {
        (0..exponent).fold(Natural::from(1), |z, _| z.times(base))
    }

    fn product(&self, other: &Natural) -> Natural {
        let mut sum = Natural::from(0);
        for (i, &digit) in other.0.iter().enumerate() {
            let mut part = vec![0; i];
            part.extend(self.times(digit).0);
            sum = sum.plus(&Natural(part));
        }
        sum
    }

    fn digit(&self, i: usize) -> u64 {
        self.0.get(i).copied().unwrap_or(0)
    }

    fn plus(&self, other: &Natural) -> Natural {
        let mut digits = Vec::new();
        let mut carry = 0u128;
        for i in 0..self.0.len().max(other.0.len()) {
            carry += u128::from(self.digit(i)) + u128::from(other.digit(i));
            digits.push(carry as u64);
            carry >>= 64;
        }
        digits.push(carry as u64);
        Natural(digits)
    }

    fn minus(&self, other: &Natural) -> Natural {
        let mut digits = Vec::new();
        let mut borrow = false;
        for i in 0..self.0.len().max(other.0.len()) {
            let (z, b) = self.digit(i).overflowing_sub(other.digit(i));
            let (z, c) = z.overflowing_sub(u64::from(borrow));
            digits.push(z);
            borrow = b || c;
        }
        assert!(!borrow, "a difference below zero");
        Natural(digits)
    }

    fn at_least(&self, other: &Natural) -> bool {
        for i in (0..self.0.len().max(other.0.len())).rev() {
            if self.digit(i) != other.digit(i) {
                return self.digit(i) > other.digit(i);
            }
        }
        true
    }
}

/// C(t) for t = 0 to 216: the floor of 2^26 × series + 1/2, over one common denominator.
fn series(t: u64) -> i128 {
    // u = 2 × p × t / 864 = a / b
    let a = 3_141_592_653_589_793 * t;
    let b = 432 * 1_000_000_000_000_000;
    let falling = |from: u64, to: u64| (to + 1..=from).product::<u64>();
    // term i is a^2i × b^(20 - 2i) × (20! / (2i)!), over b^20 × 20!
    let term = |i: usize| Natural::power(a, 2 * i).product(&Natural::power(b, 20 - 2 * i)).times(falling(20, 2 * i as u64));
    let sum = |first: usize| (first..=10).step_by(2).fold(Natural::from(0), |z, i| z.plus(&term(i)));
    let bottom = Natural::power(b, 20).times(falling(20, 0));
    let mut top = sum(0).times(1 << 27).plus(&bottom).minus(&sum(1).times(1 << 27));
    let twice = bottom.times(2);
    let mut quotient = 0;
    for bit in (0..=27).rev() {
        let part = twice.times(1 << bit);
        if top.at_least(&part) {
            top = top.minus(&part);
            quotient += 1 << bit;
        }
    }
    assert!(!top.at_least(&twice), "a quotient above 2^28");
    quotient
}

pub const LENGTHS: [usize; 6] = [12, 24, 36, 72, 108, 216];
/// Those at which the short route is offered, and those of the double route.
pub const SHORT_LENGTHS: [usize; 4] = [12, 24, 36, 72];
pub const DOUBLE_LENGTHS: [usize; 2] = [36, 72];
pub const STORAGE: usize = 108;
/// A state: N, the expected number, the expected shape, and from its place TAIL on the tail's storage.
pub const EXPECTED: usize = 1;
pub const SHAPE: usize = 2;
pub const TAIL: usize = 3;
pub const STATE: usize = TAIL + STORAGE;
pub const COEFFICIENT_LIMIT: i32 = 536_870_912;
pub const HOPS: usize = 4095;
pub const LARGEST_STEP: i64 = 65_536;
/// Of a search: the largest step that is tried, and the largest distance that may be allowed.
pub const LARGEST_TRIED: u32 = 1024;
pub const LARGEST_ALLOWED: u32 = 32;

#[derive(Clone, Copy, Debug, PartialEq)]
pub enum Route {
    Direct,
    Short,
    Double,
}

/// The shapes of a block's left joint and of its right one.
pub type Shapes = (u32, u32);
pub const LONG: u32 = 0;
pub const SHORT: u32 = 1;

/// The orders of a recording's coefficients.
pub const BY_BLOCK: u32 = 0;
pub const BY_FREQUENCY: u32 = 1;

/// A recording as a call is told of it: its length, its hops, and the order of its coefficients.
#[derive(Clone, Copy, Debug)]
pub struct Recording {
    pub n: usize,
    pub hops: usize,
    pub order: u32,
}

impl Recording {
    /// Whether there are such hops and such an order.
    fn counted(self) -> bool {
        1 <= self.hops && self.hops <= HOPS && self.order <= BY_FREQUENCY
    }

    /// Whether so many are the coefficients of its blocks, of which it has one more than hops.
    fn fits(self, length: usize) -> bool {
        self.counted() && length == (self.hops + 1) * (self.n / 2)
    }

    fn place(self, b: usize, k: usize) -> usize {
        if self.order == BY_BLOCK {
            b * (self.n / 2) + k
        } else {
            k * (self.hops + 1) + b
        }
    }

    /// The coefficients of each block, from where they lie.
    pub fn blocks(self, x: &[i32]) -> Vec<Vec<i32>> {
        let block = |b: usize| (0..self.n / 2).map(|k| x[self.place(b, k)]).collect();
        (0..=self.hops).map(block).collect()
    }

    /// The coefficients of all blocks, where they are to lie.
    pub fn laid(self, blocks: &[Vec<i32>]) -> Vec<i32> {
        let mut x = vec![0; blocks.len() * (self.n / 2)];
        for (b, block) in blocks.iter().enumerate() {
            for (k, &c) in block.iter().enumerate() {
                x[self.place(b, k)] = c;
            }
        }
        x
    }

    /// The same recording in the order that this one is not.
    pub fn turned(self) -> Recording {
        Recording { order: if self.order == BY_BLOCK { BY_FREQUENCY } else { BY_BLOCK }, ..self }
    }
}

/// The original coefficients of the earlier of two blocks and the changed ones, and those of the later block.
pub type Changes<'a> = [&'a [i32]; 4];

/// rnd(a/b), an exact half going away from zero: by size, the floor of (|a| + b/2)/b, with the sign of a.
pub fn rnd(a: i128, b: i128) -> i128 {
    assert!(b > 0 && b % 2 == 0);
    a.signum() * ((a.abs() + b / 2) / b)
}

pub fn tabled(n: usize) -> bool {
    LENGTHS.contains(&n)
}

pub fn offered(route: Route, n: usize) -> bool {
    match route {
        Route::Direct => tabled(n),
        Route::Short => SHORT_LENGTHS.contains(&n),
        Route::Double => DOUBLE_LENGTHS.contains(&n),
    }
}

/// How far a coefficient by this route may lie from the defined one.
pub fn units(route: Route) -> u32 {
    match route {
        Route::Direct => 0,
        Route::Short => 16,
        Route::Double => 32,
    }
}

/// Whether both are shapes.
pub fn shaped((left, right): Shapes) -> bool {
    left <= SHORT && right <= SHORT
}

pub fn tail_limit(n: usize) -> i64 {
    (n / 2) as i64 * (1 << 55)
}

pub struct Bank {
    quarter: Vec<i128>,
}

impl Bank {
    pub fn new() -> Bank {
        Bank { quarter: (0..=216).map(series).collect() }
    }

    pub fn c(&self, t: i64) -> i128 {
        let t = t.rem_euclid(864);
        if t <= 216 {
            self.quarter[t as usize]
        } else if t <= 432 {
            -self.c(432 - t)
        } else {
            self.c(864 - t)
        }
    }

    /// Entry i of the half that rises over a joint of this shape, i below n/2.
    fn rising(&self, n: usize, shape: u32, i: usize) -> i128 {
        let (n, i) = (n as i64, i as i64);
        if shape == LONG {
            return self.c(216 / n * (n - 2 * i - 1));
        }
        let r = n / 2 / 3;
        match i / r {
            0 => 0,
            1 => self.c(216 - 108 / r * (2 * (i - r) + 1)),
            _ => 67_108_864,
        }
    }

    /// The window W(i) of a block with these shapes at length n: over its right joint it falls as the mirror of what rises there.
    pub fn w(&self, n: usize, (left, right): Shapes, i: usize) -> i128 {
        if i < n / 2 {
            self.rising(n, left, i)
        } else {
            self.rising(n, right, n - 1 - i)
        }
    }

    /// The kernel K(i,k) at length n.
    pub fn k(&self, n: usize, i: usize, k: usize) -> i128 {
        let (n, i, k) = (n as i64, i as i64, k as i64);
        self.c(216 / n * (2 * i + 1 + n / 2) * (2 * k + 1))
    }

    /// The short kernel L(i,k) at length n.
    pub fn l(&self, n: usize, i: usize, k: usize) -> i128 {
        let (n, i, k) = (n as i64, i as i64, k as i64);
        self.c(3 * (216 / n) * (2 * i + 1 + n / 6) * (2 * k + 1))
    }

    fn windowed(&self, n: usize, shapes: Shapes, x: &[i16]) -> Vec<i128> {
        (0..n).map(|i| rnd(self.w(n, shapes, i) * i128::from(x[i]), 1 << 18)).collect()
    }

    /// S(k), and what it is divided by.
    fn direct(&self, n: usize, y: &[i128]) -> Vec<(i128, i128)> {
        let places = nonzero(y);
        let s = |k: usize| places.iter().map(|&i| y[i] * self.k(n, i, k)).sum();
        (0..n / 2).map(|k| (s(k), 1 << 28)).collect()
    }

    /// Of n inputs, a - b + c, and what is divided by 2^26 to rB(i) and rC(i).
    fn split(&self, n: usize, y: &[i128], i: usize) -> (i128, i128, i128) {
        let third = n / 3;
        let (a, b, c) = (y[third - 1 - i], y[2 * third - 1 - i], y[n - 1 - i]);
        let (e, f) = (2 * c - a + b, a + b);
        let s = 2 * (216 / n as i64) * (2 * i as i64 + 1);
        let top_b = e * self.c(216 - s) - f * (self.c(s - 72) + self.c(s + 72));
        let top_c = e * self.c(s) + f * (self.c(144 - s) + self.c(288 - s));
        (a - b + c, top_b, top_c)
    }

    /// The three parts of n/3 inputs into which n inputs are split: a - b + c, rB, and rC with its sign changed where i + n/12 is even.
    fn parts(&self, n: usize, y: &[i128]) -> [Vec<i128>; 3] {
        let mut parts = [Vec::new(), Vec::new(), Vec::new()];
        for i in 0..n / 3 {
            let (plain, top_b, top_c) = self.split(n, y, i);
            let sign = if (i + n / 12) % 2 == 0 { -1 } else { 1 };
            parts[0].push(plain);
            parts[1].push(rnd(top_b, 1 << 26));
            parts[2].push(sign * rnd(top_c, 1 << 26));
        }
        parts
    }

    /// A(k), B(k) + D(k) and B(k) - D(k) at their places, and what each is divided by.
    fn short(&self, n: usize, y: &[i128]) -> Vec<(i128, i128)> {
        let (third, sixth) = (n / 3, n / 6);
        let [plain, r_b, r_c] = self.parts(n, y);
        let sum = |r: &[i128], k: usize| (0..third).filter(|&i| r[i] != 0).map(|i| self.l(n, i, k) * r[i]).sum::<i128>();
        let mut x = Vec::new();
        for k in 0..sixth {
            let (a, b, d) = (sum(&plain, k), sum(&r_b, k), sum(&r_c, sixth - 1 - k));
            x.extend([(b + d, 1 << 29), (a, 1 << 28), (b - d, 1 << 29)]);
        }
        x
    }

    /// What comes out of n inputs, twice for each split: while n divides by 12 they are split, and at 3k, 3k + 1 and 3k + 2 stand B(k) + D(k), 2 A(k)
    /// and B(k) - D(k) of what comes out of the parts. At the end S(k) does.
    fn scaled(&self, n: usize, y: &[i128]) -> Vec<i128> {
        if n % 12 != 0 {
            return self.direct(n, y).into_iter().map(|(s, _)| s).collect();
        }
        let [a, b, g] = self.parts(n, y).map(|part| self.scaled(n / 3, &part));
        let mut out = vec![0; n / 2];
        for k in 0..n / 6 {
            let d = g[n / 6 - 1 - k];
            out[3 * k] = b[k] + d;
            out[3 * k + 1] = 2 * a[k];
            out[3 * k + 2] = b[k] - d;
        }
        out
    }

    /// For each coefficient of a block of n samples, the sum and the power of two whose quotient is rounded to it.
    pub fn sums(&self, route: Route, n: usize, shapes: Shapes, x: &[i16]) -> Vec<(i128, i128)> {
        let y = self.windowed(n, shapes, x);
        match route {
            Route::Direct => self.direct(n, &y),
            Route::Short => self.short(n, &y),
            Route::Double => self.scaled(n, &y).into_iter().map(|z| (z, 1 << 30)).collect(),
        }
    }

    /// What is divided by 2^26 to rB(i) and rC(i).
    #[cfg(library)]
    pub fn split_sums(&self, n: usize, shapes: Shapes, x: &[i16], i: usize) -> [i128; 2] {
        let (_, top_b, top_c) = self.split(n, &self.windowed(n, shapes, x), i);
        [top_b, top_c]
    }

    /// The same of the splits of the three parts of n/3 inputs.
    #[cfg(library)]
    pub fn second_split_sums(&self, n: usize, shapes: Shapes, x: &[i16], i: usize) -> [i128; 6] {
        let [a, b, c] = self.parts(n, &self.windowed(n, shapes, x)).map(|part| self.split(n / 3, &part, i));
        [a.1, a.2, b.1, b.2, c.1, c.2]
    }

    fn coefficients(&self, route: Route, n: usize, shapes: Shapes, x: &[i16]) -> Vec<i32> {
        let rounded = |(a, b): (i128, i128)| i32::try_from(rnd(a, b)).expect("a coefficient beyond 32 bits");
        self.sums(route, n, shapes, x).into_iter().map(rounded).collect()
    }

    /// V(0) .. V(n-1).
    pub fn v(&self, n: usize, shapes: Shapes, x: &[i32]) -> Vec<i64> {
        let places = nonzero(x);
        let u = |i: usize| rnd(places.iter().map(|&k| i128::from(x[k]) * self.k(n, i, k)).sum(), 1 << 26);
        (0..n).map(|i| i64::try_from(self.w(n, shapes, i) * u(i)).expect("V beyond 64 bits")).collect()
    }

    /// The hop of one step; the first n/2 entries of the tail are replaced.
    fn advance(&self, n: usize, tail: &mut [i64], shapes: Shapes, x: &[i32]) -> Vec<i16> {
        let m = n / 2;
        let v = self.v(n, shapes, x);
        let sample = |i: usize| rnd(i128::from(tail[i]) + i128::from(v[i]), n as i128 * (1 << 30)).clamp(-32768, 32767) as i16;
        let hop = (0..m).map(sample).collect();
        tail[..m].copy_from_slice(&v[m..]);
        hop
    }

    // The calls of the header, refusals included.

    pub fn analyse(&self, route: Route, n: usize, shapes: Shapes, x: &[i16], out: &mut [i32]) -> u32 {
        if !offered(route, n) {
            return 1;
        }
        if !shaped(shapes) {
            return 8;
        }
        if x.len() != n || out.len() != n / 2 {
            return 2;
        }
        out.copy_from_slice(&self.coefficients(route, n, shapes, x));
        0
    }

    pub fn stream_fresh(&self, n: usize, state: &mut [i64]) -> u32 {
        if !tabled(n) {
            return 1;
        }
        if state.len() != STATE {
            return 2;
        }
        state.fill(0);
        state[0] = n as i64;
        0
    }

    pub fn stream_step(&self, state: &mut [i64], number: u32, shapes: Shapes, x: &[i32], out: &mut [i16]) -> u32 {
        let n = match expecting(state, number, shapes) {
            Ok(n) => n,
            Err(cause) => return cause,
        };
        if x.len() != n / 2 || out.len() != n / 2 {
            return 2;
        }
        if beyond(x) {
            return 3;
        }
        self.take(state, number, shapes, x, out);
        0
    }

    /// A step on levels: any number is one.
    pub fn stream_step_levels(&self, state: &mut [i64], number: u32, shapes: Shapes, table: &[u8], levels: &[i32], out: &mut [i16]) -> u32 {
        let checked = expecting(state, number, shapes).and_then(|n| steps(n / 2, table));
        let steps = match checked {
            Ok(steps) => steps,
            Err(cause) => return cause,
        };
        if levels.len() != steps.len() || out.len() != steps.len() {
            return 2;
        }
        self.take(state, number, shapes, &backs(levels, &steps), out);
        0
    }

    /// A step that nothing refuses.
    fn take(&self, state: &mut [i64], number: u32, shapes: Shapes, x: &[i32], out: &mut [i16]) {
        out.copy_from_slice(&self.advance(state[0] as usize, &mut state[TAIL..], shapes, x));
        // after the last number it is 2^32, which no block bears
        state[EXPECTED] = i64::from(number) + 1;
        state[SHAPE] = i64::from(shapes.1);
    }

    pub fn quantise(&self, n: usize, table: &[u8], x: &[i32], out: &mut [i32]) -> u32 {
        let steps = match steps_at(Route::Direct, n, table) {
            Ok(steps) => steps,
            Err(cause) => return cause,
        };
        if x.len() != steps.len() || out.len() != steps.len() {
            return 2;
        }
        if beyond(x) {
            return 3;
        }
        for k in 0..x.len() {
            out[k] = level(x[k], steps[k]);
        }
        0
    }

    pub fn dequantise(&self, n: usize, table: &[u8], levels: &[i32], out: &mut [i32]) -> u32 {
        let steps = match steps_at(Route::Direct, n, table) {
            Ok(steps) => steps,
            Err(cause) => return cause,
        };
        if levels.len() != steps.len() || out.len() != steps.len() {
            return 2;
        }
        out.copy_from_slice(&backs(levels, &steps));
        0
    }

    pub fn told_distance(&self, n: usize, route: u32, table: &[u8], out: &mut [u32]) -> u32 {
        let route = match route {
            0 => Route::Direct,
            1 => Route::Short,
            2 => Route::Double,
            _ => return 1,
        };
        let steps = match steps_at(route, n, table) {
            Ok(steps) => steps,
            Err(cause) => return cause,
        };
        if out.len() != 1 {
            return 2;
        }
        out[0] = distance(route, &steps);
        0
    }

    /// The shares of the sample at this place of the hop that two blocks cover, those of the earlier block first: each coefficient's change times K
    /// times W there, without its sign.
    pub fn shares(&self, n: usize, shape: u32, changes: Changes, place: usize) -> Vec<i128> {
        let m = n / 2;
        let [first, first_changed, second, second_changed] = changes;
        let change = |x: &[i32], changed: &[i32], k: usize| i128::from(changed[k]) - i128::from(x[k]);
        // the joint is the earlier block's right one and the later block's left one
        let (falling, rising) = (self.w(n, (LONG, shape), m + place), self.w(n, (shape, LONG), place));
        let earlier = (0..m).map(|k| change(first, first_changed, k) * self.k(n, m + place, k) * falling);
        let later = (0..m).map(|k| change(second, second_changed, k) * self.k(n, place, k) * rising);
        earlier.chain(later).map(i128::abs).collect()
    }

    pub fn largest_share(&self, n: usize, shape: u32, changes: Changes, place: usize, named: &mut [u32]) -> u32 {
        if !tabled(n) {
            return 1;
        }
        if !shaped((shape, shape)) {
            return 8;
        }
        let m = n / 2;
        if changes.iter().any(|x| x.len() != m) || place >= m || named.len() != 3 {
            return 2;
        }
        if changes.into_iter().any(beyond) {
            return 3;
        }
        named.copy_from_slice(&self.largest(n, shape, changes, place, 0));
        0
    }

    /// What is named of two blocks, the earlier of which has this number: the first of the largest shares, by block and then by coefficient.
    fn largest(&self, n: usize, shape: u32, changes: Changes, place: usize, earlier: usize) -> [u32; 3] {
        let m = n / 2;
        let shares = self.shares(n, shape, changes, place);
        let first = (0..2 * m).rev().max_by_key(|&at| shares[at]).expect("a block has coefficients");
        if shares[first] == 0 {
            [0; 3]
        } else {
            [1, (earlier + first / m) as u32, (first % m) as u32]
        }
    }

    /// A sample of a recording: blocks hop and hop + 1 cover it, and the joint between them is long.
    pub fn largest_share_recording(&self, recording: Recording, lists: [&[i32]; 2], hop: usize, place: usize, named: &mut [u32]) -> u32 {
        let Recording { n, hops, .. } = recording;
        if !tabled(n) {
            return 1;
        }
        if !lists.iter().all(|x| recording.fits(x.len())) || hop >= hops || place >= n / 2 || named.len() != 3 {
            return 2;
        }
        if lists.into_iter().any(beyond) {
            return 3;
        }
        let [original, changed] = lists.map(|x| recording.blocks(x));
        let changes: Changes = [&original[hop], &changed[hop], &original[hop + 1], &changed[hop + 1]];
        named.copy_from_slice(&self.largest(n, LONG, changes, place, hop));
        0
    }

    /// The coefficients of a recording's blocks. Block b, b from 0 to hops, covers hops b - 1 and b. What lies outside the recording is 0, and every joint
    /// is long.
    pub fn analysed(&self, route: Route, n: usize, x: &[i16]) -> Vec<Vec<i32>> {
        let m = n / 2;
        let block = |b: usize| {
            let sample = |i: usize| (b * m + i).checked_sub(m).and_then(|at| x.get(at)).copied().unwrap_or(0);
            self.coefficients(route, n, (LONG, LONG), &(0..n).map(sample).collect::<Vec<i16>>())
        };
        (0..=x.len() / m).map(block).collect()
    }

    /// The samples that come back from the coefficients of a recording's blocks.
    fn returned(&self, n: usize, blocks: &[Vec<i32>]) -> Vec<i16> {
        let mut tail = vec![0; n / 2];
        let hops = blocks.iter().map(|block| self.advance(n, &mut tail, (LONG, LONG), block)).collect::<Vec<_>>();
        // the first is the run-in
        hops[1..].concat()
    }

    pub fn analyse_recording(&self, route: Route, recording: Recording, x: &[i16], out: &mut [i32]) -> u32 {
        let Recording { n, hops, .. } = recording;
        if !offered(route, n) {
            return 1;
        }
        if !recording.fits(out.len()) || x.len() != hops * (n / 2) {
            return 2;
        }
        out.copy_from_slice(&recording.laid(&self.analysed(route, n, x)));
        0
    }

    pub fn synthesise_recording(&self, recording: Recording, x: &[i32], out: &mut [i16]) -> u32 {
        let Recording { n, hops, .. } = recording;
        if !tabled(n) {
            return 1;
        }
        if !recording.fits(x.len()) || out.len() != hops * (n / 2) {
            return 2;
        }
        if beyond(x) {
            return 3;
        }
        out.copy_from_slice(&self.returned(n, &recording.blocks(x)));
        0
    }

    /// What lies in the order that this one is not, in this one.
    pub fn reorder(&self, to: Recording, x: &[i32], out: &mut [i32]) -> u32 {
        if !tabled(to.n) {
            return 1;
        }
        if !to.fits(x.len()) || !to.fits(out.len()) {
            return 2;
        }
        if beyond(x) {
            return 3;
        }
        out.copy_from_slice(&to.laid(&to.turned().blocks(x)));
        0
    }

    /// How far each sample of a recording lies from its own where every coefficient of its blocks is stored by this step.
    pub fn apart(&self, n: usize, x: &[i16], blocks: &[Vec<i32>], step: u32) -> Vec<u32> {
        let stored = |&c: &i32| back(level(c, i64::from(step)), i64::from(step));
        let stored: Vec<Vec<i32>> = blocks.iter().map(|block| block.iter().map(stored).collect()).collect();
        self.returned(n, &stored).into_iter().zip(x).map(|(returned, &own)| u32::from(returned.abs_diff(own))).collect()
    }

    pub fn coarsest_step(&self, n: usize, hops: usize, x: &[i16], allowed: u32, budget: usize, found: &mut [u32]) -> u32 {
        if !tabled(n) {
            return 1;
        }
        if !(1..=HOPS).contains(&hops) || x.len() != hops * (n / 2) || found.len() != 3 {
            return 2;
        }
        if allowed > LARGEST_ALLOWED {
            return 12;
        }
        let blocks = self.analysed(Route::Direct, n, x);
        found.copy_from_slice(&search(allowed, budget, |step| self.apart(n, x, &blocks, step).into_iter().all(|distance| distance <= allowed)));
        0
    }

    /// The coefficients of a block as the patterns of floats.
    pub fn floats(&self, n: usize, x: &[i32], out: &mut [u64]) -> u32 {
        let refused = block_refusal(n, x, out.len() == n / 2);
        if refused == 0 {
            out.copy_from_slice(&x.iter().map(|&c| pattern(c)).collect::<Vec<_>>());
        }
        refused
    }

    /// The patterns of its highest and its lowest value.
    pub fn highest_lowest(&self, n: usize, x: &[i32], out: &mut [u64]) -> u32 {
        let refused = block_refusal(n, x, out.len() == 2);
        if refused == 0 {
            let mut ascending = x.to_vec();
            ascending.sort_unstable();
            out.copy_from_slice(&[ascending[ascending.len() - 1], ascending[0]].map(pattern));
        }
        refused
    }

    pub fn page(&self, recording: Recording, x: &[i32], out: &mut [u8]) -> u32 {
        let Recording { n, hops, .. } = recording;
        if !tabled(n) {
            return 1;
        }
        if !recording.fits(x.len()) || out.len() != page_length(n, hops) {
            return 2;
        }
        if beyond(x) {
            return 3;
        }
        let mut text = String::new();
        for (b, block) in recording.blocks(x).iter().enumerate() {
            for (i, six) in block.chunks(6).enumerate() {
                text += &if i == 0 { format!("{b:>8}") } else { " ".repeat(8) };
                text.extend(six.iter().map(|z| format!("{z:>12}")));
                text += "\n";
            }
        }
        out.copy_from_slice(text.as_bytes());
        0
    }
}

/// The length of a stream, or the first cause why it does not take a block of this number with these shapes.
fn expecting(state: &[i64], number: u32, shapes: Shapes) -> Result<usize, u32> {
    if state.len() != STATE {
        return Err(2);
    }
    let n = LENGTHS.into_iter().find(|&n| n as i64 == state[0]).ok_or(4u32)?;
    let limit = i128::from(tail_limit(n));
    if state[TAIL..TAIL + n / 2].iter().any(|&t| i128::from(t) < -limit || i128::from(t) > limit) {
        return Err(4);
    }
    if i64::from(number) != state[EXPECTED] {
        return Err(7);
    }
    if !shaped(shapes) || i64::from(shapes.0) != state[SHAPE] {
        return Err(8);
    }
    Ok(n)
}

/// The number that a field writes. An optional minus and 1 to 5 digits without a leading zero and without -0 is the form in which a number is
/// printed.
fn written(field: &[u8]) -> Option<i64> {
    let text = std::str::from_utf8(field).ok()?;
    let number: i64 = text.parse().ok()?;
    (number.abs() <= 99_999 && number.to_string() == text).then_some(number)
}

/// First, last and step of a line of a table for m coefficients, its line feed included; None for 9.
fn table_line(m: usize, line: &[u8]) -> Option<(i64, i64, i64)> {
    let fields = line.strip_suffix(b"\n")?.split(|&byte| byte == b',');
    let numbers = fields.map(written).collect::<Option<Vec<i64>>>()?;
    let &[first, last, step] = &numbers[..] else {
        return None;
    };
    let inside = 0 <= first && first <= last && last < m as i64 && 1 <= step && step <= LARGEST_STEP;
    inside.then_some((first, last, step))
}

/// The step of each of m coefficients by a table, or the cause why it is turned away.
pub fn steps(m: usize, table: &[u8]) -> Result<Vec<i64>, u32> {
    let lines = table.split_inclusive(|&byte| byte == b'\n').map(|line| table_line(m, line));
    let lines = lines.collect::<Option<Vec<_>>>().ok_or(9u32)?;
    let mut steps = Vec::new();
    for (first, last, step) in lines {
        let uncovered = steps.len() as i64;
        if first != uncovered {
            return Err(if first > uncovered { 10 } else { 11 });
        }
        steps.resize(last as usize + 1, step);
    }
    if steps.len() == m {
        Ok(steps)
    } else {
        Err(10)
    }
}

/// The same where the route is offered at length n.
fn steps_at(route: Route, n: usize, table: &[u8]) -> Result<Vec<i64>, u32> {
    if offered(route, n) {
        steps(n / 2, table)
    } else {
        Err(1)
    }
}

/// rnd(x/step); doubled, both stay whole at an odd step.
pub fn level(x: i32, step: i64) -> i32 {
    rnd(2 * i128::from(x), 2 * i128::from(step)) as i32
}

/// What a level comes back as.
pub fn back(level: i32, step: i64) -> i32 {
    let limit = i64::from(COEFFICIENT_LIMIT);
    (i64::from(level) * step).clamp(-limit, limit) as i32
}

fn backs(levels: &[i32], steps: &[i64]) -> Vec<i32> {
    levels.iter().zip(steps).map(|(&level, &step)| back(level, step)).collect()
}

/// The distance told for the largest of these steps.
pub fn distance(route: Route, steps: &[i64]) -> u32 {
    let largest = steps.iter().max().expect("a table that is taken has a line");
    let q = largest / 2 + i64::from(units(route));
    ((q + 8) / 16) as u32
}

/// The step that needs no trial.
fn sure(allowed: u32) -> u32 {
    LARGEST_TRIED.min(32 * allowed + 15)
}

/// The step found, the trials made, and how many untried steps lie above that step.
pub fn search(allowed: u32, budget: usize, passes: impl Fn(u32) -> bool) -> [u32; 3] {
    let mut trials = 0;
    for step in (sure(allowed) + 1..=LARGEST_TRIED).rev() {
        if trials as usize == budget {
            return [sure(allowed), trials, step - sure(allowed)];
        }
        trials += 1;
        if passes(step) {
            return [step, trials, 0];
        }
    }
    [sure(allowed), trials, 0]
}

/// The pattern of the float equal to c/64: its sign, its exponent counted from -1023 on, and the 52 bits behind its leading one. 0 has none.
pub fn pattern(c: i32) -> u64 {
    let size = u64::from(c.unsigned_abs());
    let Some(top) = size.checked_ilog2() else {
        return 0;
    };
    let exponent = 1023 - 6 + u64::from(top);
    u64::from(c < 0) << 63 | exponent << 52 | (size - (1 << top)) << (52 - top)
}

/// The number of a call on the coefficients of one block, if the length of its output is as it should be.
fn block_refusal(n: usize, x: &[i32], length_kept: bool) -> u32 {
    if !tabled(n) {
        1
    } else if x.len() != n / 2 || !length_kept {
        2
    } else if beyond(x) {
        3
    } else {
        0
    }
}

/// A line of 80 columns and a line feed for every six coefficients.
pub fn page_length(n: usize, hops: usize) -> usize {
    (hops + 1) * (n / 2 / 6) * 81
}

/// The places that count in a sum of products.
fn nonzero<T: Default + PartialEq>(list: &[T]) -> Vec<usize> {
    (0..list.len()).filter(|&i| list[i] != T::default()).collect()
}

fn beyond(x: &[i32]) -> bool {
    x.iter().any(|&z| z < -COEFFICIENT_LIMIT || z > COEFFICIENT_LIMIT)
}
