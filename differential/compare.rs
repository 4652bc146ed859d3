//! The library held against the reference, call by call.
mod coarsest;
mod floats;
mod orders;
mod shares;
mod steps;

use crate::inputs::*;
use crate::library;
use crate::reference::{offered, page_length, shaped, tail_limit, units, Bank, Recording, Route, Shapes};
use crate::reference::{COEFFICIENT_LIMIT, EXPECTED, HOPS, LENGTHS, LONG, SHAPE, STATE, STORAGE, TAIL};
use std::fmt::Debug;

/// More than any hop.
const MARGIN: usize = 120;

/// A buffer that is lent to the library between two margins that no call may touch.
struct Lent<T> {
    cells: Vec<T>,
    before: Vec<T>,
}

impl<T: Copy + PartialEq> Lent<T> {
    fn new(content: &[T], margin: T) -> Lent<T> {
        let mut cells = vec![margin; MARGIN];
        cells.extend_from_slice(content);
        cells.extend(vec![margin; MARGIN]);
        Lent { before: cells.clone(), cells }
    }

    fn part(&mut self) -> &mut [T] {
        let end = self.cells.len() - MARGIN;
        &mut self.cells[MARGIN..end]
    }

    fn margins_kept(&self) -> bool {
        let end = self.cells.len() - MARGIN;
        self.cells[..MARGIN] == self.before[..MARGIN] && self.cells[end..] == self.before[end..]
    }

    fn kept(&self) -> bool {
        self.cells == self.before
    }
}

struct Compare {
    bank: Bank,
    random: Random,
    calls: u64,
}

/// Samples, one more where they are -32,768, whose turned number is no sample; and the same with their signs turned.
fn opposites(x: &[i16]) -> (Vec<i16>, Vec<i16>) {
    let x: Vec<i16> = x.iter().map(|&s| s.max(-i16::MAX)).collect();
    let turned = x.iter().map(|&s| -s).collect();
    (x, turned)
}

/// The shapes of block b's joints.
fn about(joints: &[u32], b: usize) -> Shapes {
    (joints[b], joints[b + 1])
}

fn negated(x: &[i32]) -> Vec<i32> {
    x.iter().map(|&c| -c).collect()
}

/// Prints what was handed in and what came back, and ends the program.
fn mismatch(call: &str, input: &dyn Debug, library: &dyn Debug, reference: &dyn Debug) -> ! {
    println!("differential: {call} answers otherwise than the documents\n  input:     {input:?}\n  library:   {library:?}\n  reference: {reference:?}");
    std::process::exit(1);
}

/// The number that stands in columns behind blanks alone; None for blanks.
fn read(columns: &[u8]) -> Option<i32> {
    let text = std::str::from_utf8(columns).expect("a page is ASCII").trim_start_matches(' ');
    (!text.is_empty()).then(|| text.parse().expect("a number in its columns"))
}

/// The coefficients of a page, each from its columns. The first line of a block bears its number, the others none.
fn read_page(n: usize, text: &[u8]) -> Vec<i32> {
    let mut x = Vec::new();
    for (g, line) in text.chunks(81).enumerate() {
        let first = g % (n / 12) == 0;
        assert_eq!(read(&line[..8]), first.then(|| (g / (n / 12)) as i32));
        assert_eq!(line[80], b'\n');
        x.extend(line[8..80].chunks(12).filter_map(read));
    }
    x
}

/// A recording on its way: the joints and the routes of its blocks, and what is brought of each, its coefficients changed by at most q.
struct Trip<'a> {
    n: usize,
    x: &'a [i16],
    joints: &'a [u32],
    q: i64,
    routes: Vec<Route>,
    brought: Vec<Vec<i32>>,
}

impl Trip<'_> {
    /// Hop h came back as near as the changes and the routes of its two blocks allow.
    fn near(&self, h: usize, hop: &[i16], how: &str) {
        let Trip { n, x, joints, q, routes, brought } = self;
        let m = n / 2;
        let bound = q + i64::from(units(routes[h]).max(units(routes[h + 1]))) + 8;
        for i in 0..m {
            let distance = (i64::from(hop[i]) - i64::from(x[h * m + i])).abs();
            if 16 * distance > bound {
                let input = (n, q, h, i, x, joints, routes, brought);
                mismatch(how, &input, &hop[i], &format_args!("{} within {bound}/16", x[h * m + i]));
            }
        }
    }
}

impl Compare {
    fn rubbish<T>(&mut self, length: usize, cut: fn(u64) -> T) -> Vec<T> {
        (0..length).map(|_| cut(self.random.bits())).collect()
    }

    fn rubbish16(&mut self, length: usize) -> Vec<i16> {
        self.rubbish(length, |z| z as i16)
    }

    fn rubbish32(&mut self, length: usize) -> Vec<i32> {
        self.rubbish(length, |z| z as i32)
    }

    /// One call with an input and an output buffer: the same number and the same content, and nothing else touched.
    fn call<I: Copy + PartialEq + Debug + Default, O: Copy + PartialEq + Debug + Default>(
        &mut self,
        name: &str,
        numbers: &dyn Debug,
        input: &[I],
        output: Vec<O>,
        library: impl FnOnce(&[I], &mut [O]) -> u32,
        reference: impl FnOnce(&Bank, &[I], &mut [O]) -> u32,
    ) -> (u32, Vec<O>) {
        self.calls += 1;
        let mut lent_in = Lent::new(input, I::default());
        let mut lent_out = Lent::new(&output, O::default());
        let mut expected = output.clone();
        let number = library(lent_in.part(), lent_out.part());
        let told = (number, lent_out.part().to_vec());
        let due = (reference(&self.bank, input, &mut expected), expected);
        if told != due {
            mismatch(name, &(numbers, input, output), &told, &due);
        }
        if !lent_in.kept() || !lent_out.margins_kept() {
            mismatch(name, &(numbers, input, output), &"wrote beside its output", &due);
        }
        told
    }

    fn analyse(&mut self, route: Route, n: usize, shapes: Shapes, x: &[i16], length: usize) -> (u32, Vec<i32>) {
        let output = self.rubbish32(length);
        let library = |x: &[i16], out: &mut [i32]| library::analyse(route, n, shapes, x, out);
        self.call("analyse", &(route, n, shapes), x, output, library, |bank, x, out| bank.analyse(route, n, shapes, x, out))
    }

    fn analyse_recording(&mut self, route: Route, recording: Recording, x: &[i16], length: usize) -> (u32, Vec<i32>) {
        let output = self.rubbish32(length);
        let library = |x: &[i16], out: &mut [i32]| library::analyse_recording(route, recording, x, out);
        self.call("analyse_recording", &(route, recording), x, output, library, |bank, x, out| {
            bank.analyse_recording(route, recording, x, out)
        })
    }

    fn synthesise_recording(&mut self, recording: Recording, x: &[i32], length: usize) -> (u32, Vec<i16>) {
        let output = self.rubbish16(length);
        let library = |x: &[i32], out: &mut [i16]| library::synthesise_recording(recording, x, out);
        self.call("synthesise_recording", &recording, x, output, library, |bank, x, out| bank.synthesise_recording(recording, x, out))
    }

    /// A page that is taken is read back, too.
    fn page(&mut self, recording: Recording, x: &[i32], length: usize) -> (u32, Vec<u8>) {
        let output = self.rubbish(length, |z| z as u8);
        let library = |x: &[i32], out: &mut [u8]| library::page(recording, x, out);
        let told = self.call("page", &recording, x, output, library, |bank, x, out| bank.page(recording, x, out));
        if told.0 == 0 {
            assert_eq!(read_page(recording.n, &told.1), recording.blocks(x).concat());
        }
        told
    }

    fn stream_fresh(&mut self, n: usize, state: Vec<i64>) -> (u32, Vec<i64>) {
        let library = |_: &[u8], out: &mut [i64]| library::stream_fresh(n, out);
        self.call("stream_fresh", &n, &[], state, library, |bank, _, out| bank.stream_fresh(n, out))
    }

    /// One step on a state, which then holds what the library left.
    fn stream_step(&mut self, state: &mut Vec<i64>, number: u32, shapes: Shapes, x: &[i32], length: usize) -> (u32, Vec<i16>) {
        let output = self.rubbish16(length);
        let before = state.clone();
        let mut lent = Lent::new(&before, 0);
        let mut after = before.clone();
        let library = |x: &[i32], out: &mut [i16]| library::stream_step(lent.part(), number, shapes, x, out);
        let told = self.call("stream_step", &(&before, number, shapes), x, output, library, |bank, x, out| {
            bank.stream_step(&mut after, number, shapes, x, out)
        });
        if lent.part() != after || !lent.margins_kept() {
            mismatch("stream_step", &(&before, number, shapes, x, length), &(told.0, lent.part()), &(told.0, after));
        }
        *state = after;
        told
    }

    /// The same with the number that the state expects.
    fn next_step(&mut self, state: &mut Vec<i64>, shapes: Shapes, x: &[i32]) {
        self.stream_step(state, expected(state), shapes, x, x.len());
    }

    /// The same with anything, mostly as it should be.
    fn some_step(&mut self, state: &mut Vec<i64>, m: usize) {
        let number = if self.random.one_in(6) { wrong_number(&mut self.random, state) } else { expected(state) };
        let wrong = self.random.one_in(6);
        let shapes = if wrong { wrong_shapes(&mut self.random, state) } else { expected_shapes(&mut self.random, state) };
        let (count, length) = (self.some_length(m), self.some_length(m));
        let x = self.some_coefficients(count);
        self.stream_step(state, number, shapes, &x, length);
    }

    fn offer(&mut self, offer: &mut Offer) -> u32 {
        self.stream_step(&mut offer.state, offer.number, offer.shapes, &offer.x, offer.length).0
    }

    fn fresh_state(&mut self, n: usize) -> Vec<i64> {
        let rubbish = self.rubbish(STATE, |z| z as i64);
        self.stream_fresh(n, rubbish).1
    }

    fn some_n(&mut self, n: usize) -> usize {
        if self.random.one_in(8) {
            self.random.pick(&WRONG_N)
        } else {
            n
        }
    }

    fn some_shape(&mut self) -> u32 {
        if self.random.one_in(12) {
            self.random.pick(&NO_SHAPES)
        } else {
            self.random.pick(&SHAPES)
        }
    }

    fn some_length(&mut self, length: usize) -> usize {
        if self.random.one_in(6) {
            wrong_length(&mut self.random, length)
        } else {
            length
        }
    }

    /// The lengths of a recording's samples and coefficients, or others, or each in place of the other.
    fn some_lengths(&mut self, hops: usize, m: usize) -> (usize, usize) {
        let (samples, coefficients) = (self.some_length(hops * m), self.some_length((hops + 1) * m));
        if self.random.one_in(12) {
            (coefficients, samples)
        } else {
            (samples, coefficients)
        }
    }

    fn some_hops(&mut self, hops: usize) -> usize {
        if self.random.one_in(8) {
            wrong_hops(&mut self.random, hops)
        } else {
            hops
        }
    }

    /// A recording as a call is told of it, mostly as it is.
    fn some_told(&mut self, n: usize, hops: usize) -> Recording {
        let order = if self.random.one_in(8) { self.random.pick(&NO_ORDERS) } else { self.random.pick(&ORDERS) };
        Recording { n: self.some_n(n), hops: self.some_hops(hops), order }
    }

    /// Coefficients, now and then with one beyond its limit.
    fn some_coefficients(&mut self, count: usize) -> Vec<i32> {
        let mut x = coefficients(&mut self.random, count);
        if count > 0 && self.random.one_in(6) {
            let at = self.random.pick(&[0, count - 1, count / 2]);
            x[at] = self.random.pick(&BEYOND);
        }
        x
    }

    fn blocks(&mut self, n: usize) {
        for shapes in PAIRS {
            self.shaped_blocks(n, shapes);
        }
        for _ in 0..4000 {
            for route in ROUTES {
                let (named, count, length) = (self.some_n(n), self.some_length(n), self.some_length(n / 2));
                let shapes = (self.some_shape(), self.some_shape());
                let x = samples(&mut self.random, count);
                self.analyse(route, named, shapes, &x, length);
            }
        }
        // alone, with a cause that goes behind a shape, and with one that goes before it
        for shapes in pairs_of_numbers() {
            for (named, length) in [(n, n / 2), (n, n), (n + 1, n / 2)] {
                for route in ROUTES {
                    let x = samples(&mut self.random, n);
                    self.analyse(route, named, shapes, &x, length);
                }
            }
        }
    }

    fn shaped_blocks(&mut self, n: usize, shapes: Shapes) {
        for x in special_blocks(&self.bank, n, shapes) {
            let answers = ROUTES.map(|route| (route, self.analyse(route, n, shapes, &x, n / 2)));
            let (_, (_, direct)) = &answers[0];
            // each route keeps its distance at every shape
            for (route, (code, own)) in &answers {
                let most = |k: usize| if *route == Route::Short && k % 3 == 1 { 0 } else { units(*route) };
                assert!(*code != 0 || (0..n / 2).all(|k| direct[k].abs_diff(own[k]) <= most(k)));
            }
        }
        for route in routes_of(n) {
            for x in half_blocks(&self.bank, &mut self.random, route, n, shapes) {
                self.turned(route, n, shapes, &x);
            }
            for _ in 0..200 {
                let x = samples(&mut self.random, n);
                self.turned(route, n, shapes, &x);
            }
        }
        if offered(Route::Short, n) {
            for x in split_half_blocks(&self.bank, &mut self.random, n, shapes) {
                // by each route that splits
                routes_of(n).into_iter().skip(1).for_each(|route| self.turned(route, n, shapes, &x));
            }
        }
        if offered(Route::Double, n) {
            for x in second_half_blocks(&self.bank, &mut self.random, n, shapes) {
                self.turned(Route::Double, n, shapes, &x);
            }
        }
    }

    fn fresh(&mut self) {
        for n in (0..300).chain(WRONG_N) {
            for length in WRONG_STATE.into_iter().chain([STATE]) {
                let state = self.rubbish(length, |z| z as i64);
                self.stream_fresh(n, state);
            }
        }
    }

    fn steps(&mut self, n: usize) {
        // every special set of coefficients, after another one and after silence
        let sets = special_coefficients(&self.bank, n);
        let mut running = self.fresh_state(n);
        for x in &sets {
            let shapes = expected_shapes(&mut self.random, &running);
            self.next_step(&mut running, shapes, x);
            for shapes in PAIRS {
                self.first_steps(n, shapes, x);
            }
        }
        // long lists from a fresh stream, refused steps in between
        for _ in 0..40 {
            let mut state = self.fresh_state(n);
            for _ in 0..25 {
                self.some_step(&mut state, n / 2);
            }
        }
        self.limit_steps(&mut running, n / 2);
    }

    /// A step after silence, and after a tail that brings every sum to a half, or one below it, so that V shows whole.
    fn first_steps(&mut self, n: usize, shapes: Shapes, x: &[i32]) {
        let mut silent = self.fresh_state(n);
        silent[SHAPE] = i64::from(shapes.0);
        self.next_step(&mut silent.clone(), shapes, x);
        let v = self.bank.v(n, shapes, x);
        for beside in [0, 1] {
            let mut made = silent.clone();
            for i in 0..n / 2 {
                made[TAIL + i] = n as i64 * (1 << 29) - beside - v[i];
            }
            self.next_step(&mut made, shapes, x);
        }
    }

    /// Steps with one coefficient at or beyond its limit, at every place.
    fn limit_steps(&mut self, state: &mut Vec<i64>, m: usize) {
        for k in 0..m {
            for size in [COEFFICIENT_LIMIT, -COEFFICIENT_LIMIT].into_iter().chain(BEYOND) {
                for length in [m, m - 1] {
                    let mut x = coefficients(&mut self.random, m);
                    x[k] = size;
                    let (number, shapes) = (expected(state), expected_shapes(&mut self.random, state));
                    self.stream_step(state, number, shapes, &x, length);
                }
            }
        }
    }

    /// States that no call made.
    fn forged(&mut self, n: usize) {
        let m = n / 2;
        let limit = tail_limit(n);
        for first in (-220..=220).chain([432, i64::MIN, i64::MAX, (1 << 32) + n as i64, (1 << 62) + n as i64, i64::MIN + n as i64, -1 << 32]) {
            let mut made = state(&mut self.random, n);
            made[0] = first;
            self.some_step(&mut made, m);
        }
        let edges = [limit, -limit, limit + 1, -limit - 1, limit * 2, i64::MAX, i64::MIN, i64::MIN + 1];
        for at in 0..STORAGE {
            for edge in edges {
                for _ in 0..3 {
                    let mut made = state(&mut self.random, n);
                    made[TAIL + at] = edge;
                    self.some_step(&mut made, m);
                }
            }
        }
        for length in WRONG_STATE {
            for _ in 0..8 {
                let mut made = state(&mut self.random, n);
                made.resize(length, 5);
                self.some_step(&mut made, m);
            }
        }
    }

    /// Tails that no call made, whose sums meet an exact half, or lie one beside it, about zero and about both ends of a sample.
    fn forged_halves(&mut self, n: usize) {
        let m = n / 2;
        let unit = n as i64 * (1 << 30);
        for target in [-32770, -32769, -32768, -32767, -2, -1, 0, 1, 32765, 32766, 32767, 32768, 40000, -40000] {
            for beside in [-1, 0, 1] {
                let x: Vec<i32> = (0..m).map(|_| self.random.between(-300_000, 300_000) as i32).collect();
                let mut made = state(&mut self.random, n);
                let shapes = expected_shapes(&mut self.random, &made);
                let v = self.bank.v(n, shapes, &x);
                for i in 0..m {
                    let sum = target * unit + self.random.pick(&[0, unit / 2, -unit / 2]) + beside;
                    made[TAIL + i] = sum - v[i];
                }
                self.next_step(&mut made, shapes, &x);
            }
        }
    }

    /// Streams that no call made to expect what they do: a step is taken exactly if it brings that number, and so is the next one.
    fn forged_numbers(&mut self, n: usize) {
        for forged in FORGED_NUMBERS {
            let low = forged as u32;
            let numbers = [low, 0, u32::MAX, low.wrapping_add(1), low.wrapping_sub(1), low ^ 1 << 31];
            for pair in numbers.iter().flat_map(|&first| numbers.map(|second| [first, second])) {
                let mut made = state(&mut self.random, n);
                made[EXPECTED] = forged;
                for number in pair {
                    let right = i64::from(number) == made[EXPECTED];
                    self.numbered_step(&mut made, number, if right { 0 } else { 7 });
                }
            }
        }
        // the last number is taken once, and none follows it
        let mut made = state(&mut self.random, n);
        made[EXPECTED] = LAST;
        self.numbered_step(&mut made, u32::MAX, 0);
        self.numbered_step(&mut made, 0, 7);
        self.numbered_step(&mut made, u32::MAX, 7);
        assert_eq!(made[EXPECTED], LAST + 1);
    }

    /// A step that is due an answer by its number and its shapes alone.
    fn due_step(&mut self, state: &mut Vec<i64>, number: u32, shapes: Shapes, due: u32) {
        let x = coefficients(&mut self.random, state[0] as usize / 2);
        assert_eq!(self.stream_step(state, number, shapes, &x, x.len()).0, due);
    }

    /// The same by its number alone.
    fn numbered_step(&mut self, state: &mut Vec<i64>, number: u32, due: u32) {
        let shapes = expected_shapes(&mut self.random, state);
        self.due_step(state, number, shapes, due);
    }

    /// Streams that no call made to expect the shape that they do: a step is taken exactly if it brings two shapes, that one on its left, and then
    /// the one on its right is expected.
    fn forged_shapes(&mut self, n: usize) {
        for forged in SHAPES.map(i64::from).into_iter().chain(FORGED_SHAPES) {
            for (left, right) in pairs_of_numbers() {
                let mut made = state(&mut self.random, n);
                made[SHAPE] = forged;
                let taken = shaped((left, right)) && i64::from(left) == forged;
                let number = expected(&made);
                self.due_step(&mut made, number, (left, right), if taken { 0 } else { 8 });
                assert_eq!(made[SHAPE], if taken { i64::from(right) } else { forged });
            }
        }
    }

    /// Every choice of a step's causes: the first of them is returned.
    fn causes(&mut self, n: usize) {
        for (chosen, due) in choices(&CAUSES) {
            for _ in 0..12 {
                let made = state(&mut self.random, n);
                let mut offer = Offer::good(&mut self.random, &made);
                chosen.iter().rev().for_each(|&cause| offer.damage(&mut self.random, cause));
                assert_eq!(self.offer(&mut offer), due);
            }
        }
    }

    /// A block, and without its samples of -32,768 the same with its sign turned: its coefficients have their signs turned (document 02, P5).
    fn turned(&mut self, route: Route, n: usize, shapes: Shapes, x: &[i16]) {
        self.analyse(route, n, shapes, x, n / 2);
        let (x, turned) = opposites(x);
        let (_, first) = self.analyse(route, n, shapes, &x, n / 2);
        let (_, second) = self.analyse(route, n, shapes, &turned, n / 2);
        if second != negated(&first) {
            mismatch("analyse, sign turned", &(route, n, shapes, x), &second, &negated(&first));
        }
    }

    /// The same of a recording.
    fn turned_recording(&mut self, route: Route, recording: Recording) {
        let Recording { n, hops, .. } = recording;
        let (wide, long) = (hops * n / 2, (hops + 1) * n / 2);
        let (x, turned) = opposites(&samples(&mut self.random, wide));
        let (_, first) = self.analyse_recording(route, recording, &x, long);
        let (_, second) = self.analyse_recording(route, recording, &turned, long);
        if second != negated(&first) {
            mismatch("analyse_recording, sign turned", &(route, recording, x), &second, &negated(&first));
        }
    }

    fn recordings(&mut self, n: usize) {
        let m = n / 2;
        for recording in [1, 2, 5, 20].into_iter().flat_map(|hops| in_orders(n, hops)) {
            for route in routes_of(n) {
                self.turned_recording(route, recording);
            }
        }
        for hops in [1, 2, 3, 4, 7, 20] {
            for _ in 0..80 {
                self.some_recording(n, hops);
            }
        }
        // a coefficient beyond its limit at either end of the first block and of the last, or of the first band and of the last
        for recording in [1, 2, 3, 20].into_iter().flat_map(|hops| in_orders(n, hops)) {
            let hops = recording.hops;
            for at in [0, hops, m - 1, hops * m, m * hops + m - hops - 1, hops * m + m - 1] {
                for beyond in BEYOND {
                    let mut x = coefficients(&mut self.random, (hops + 1) * m);
                    x[at] = beyond;
                    self.synthesise_recording(recording, &x, hops * m);
                }
            }
        }
        for recording in WRAPPING_HOPS.into_iter().flat_map(|hops| in_orders(n, hops)) {
            let (wide, long) = (recording.hops.wrapping_mul(m), recording.hops.wrapping_add(1).wrapping_mul(m));
            if wide < 1000 && long < 1000 {
                self.both_ways(recording, wide, long);
            }
        }
        // the longest, and one hop more
        for recording in [HOPS, HOPS + 1].into_iter().flat_map(|hops| in_orders(n, hops)) {
            self.both_ways(recording, recording.hops * m, (recording.hops + 1) * m);
        }
    }

    /// Recordings of anything by each route, and anything back, mostly as it should be.
    fn some_recording(&mut self, n: usize, hops: usize) {
        let m = n / 2;
        for route in ROUTES {
            let (wide, long) = self.some_lengths(hops, m);
            let x = samples(&mut self.random, wide);
            let told = self.some_told(n, hops);
            self.analyse_recording(route, told, &x, long);
        }
        let (wide, long) = self.some_lengths(hops, m);
        let x = self.some_coefficients(long);
        let told = self.some_told(n, hops);
        self.synthesise_recording(told, &x, wide);
    }

    /// A recording of so many samples by each route, and so many coefficients back.
    fn both_ways(&mut self, recording: Recording, wide: usize, long: usize) {
        let x = samples(&mut self.random, wide);
        for route in ROUTES {
            self.analyse_recording(route, recording, &x, long);
        }
        let x = coefficients(&mut self.random, long);
        self.synthesise_recording(recording, &x, wide);
    }

    fn pages(&mut self, n: usize) {
        let m = n / 2;
        for hops in [1, 2, 3, 4, 9, 10, 20, 99, 100] {
            for _ in 0..40 {
                let (count, length) = (self.some_length((hops + 1) * m), self.some_length(page_length(n, hops)));
                let x = self.some_coefficients(count);
                let told = self.some_told(n, hops);
                self.page(told, &x, length);
            }
        }
        self.page_sizes(n);
        for recording in WRAPPING_HOPS.into_iter().flat_map(|hops| in_orders(n, hops)) {
            let blocks = recording.hops.wrapping_add(1);
            for count in [blocks.wrapping_mul(m), n] {
                for length in [blocks.wrapping_mul(n / 12 * 81), page_length(n, 1)] {
                    if count < 1000 && length < 10_000 {
                        let x = coefficients(&mut self.random, count);
                        self.page(recording, &x, length);
                    }
                }
            }
        }
        // the longest, with its last coefficient in range and beyond it, and one hop more
        for (hops, last) in [(HOPS, 1), (HOPS, COEFFICIENT_LIMIT + 1), (HOPS + 1, 1)] {
            for recording in in_orders(n, hops) {
                let mut x = coefficients(&mut self.random, (hops + 1) * m);
                x[hops * m + m - 1] = last;
                self.page(recording, &x, page_length(n, hops));
            }
        }
    }

    /// A coefficient at each end of its range, beyond it, and beside every power of ten, at every place of two blocks.
    fn page_sizes(&mut self, n: usize) {
        let tens = (0..9).map(|d| 10i32.pow(d)).flat_map(|p| [p, p - 1, -p, 1 - p]);
        let sizes: Vec<i32> = [COEFFICIENT_LIMIT, -COEFFICIENT_LIMIT].into_iter().chain(BEYOND).chain(tens).collect();
        for at in 0..n {
            for &size in &sizes {
                let mut x = coefficients(&mut self.random, n);
                x[at] = size;
                let order = self.random.pick(&ORDERS);
                self.page(Recording { n, hops: 1, order }, &x, page_length(n, 1));
            }
        }
    }

    /// Changes of a block's coefficients, each from -q to q. A place turns them all one way at that place of the block.
    fn changed(&mut self, n: usize, x: &[i32], q: i64, kind: usize, place: usize) -> Vec<i32> {
        let limit = i64::from(COEFFICIENT_LIMIT);
        let mut changed = Vec::new();
        for (k, &c) in x.iter().enumerate() {
            let change = match kind {
                0 => self.random.between(-q, q),
                1 => self.random.pick(&[-q, q]),
                2 => q,
                _ if self.bank.k(n, place, k) < 0 => -q,
                _ => q,
            };
            changed.push((i64::from(c) + change).clamp(-limit, limit) as i32);
        }
        changed
    }

    /// Block b of a recording, analysed with the joints about it. With a hop of zeros put before the recording and one after it, it covers hops b - 1
    /// and b.
    fn analyse_block(&mut self, route: Route, n: usize, x: &[i16], joints: &[u32], b: usize) -> Vec<i32> {
        let m = n / 2;
        let padded = [&vec![0; m], x, &vec![0; m]].concat();
        let (number, coefficients) = self.analyse(route, n, about(joints, b), &padded[b * m..b * m + n], m);
        assert_eq!(number, 0);
        coefficients
    }

    /// A recording there and back with these joints: block by block, in whatever order they arrive, and by the calls over recordings where every
    /// joint is long.
    fn round_trip(&mut self, n: usize, x: &[i16], joints: &[u32], q: i64) {
        let m = n / 2;
        let hops = x.len() / m;
        let kind = self.random.below(4);
        let (target, pushed) = (self.random.below(m), self.random.below(hops));
        // all blocks by one route, or each by any
        let choice = routes_of(n);
        let style = self.random.below(choice.len() + 1);
        let mut routes = Vec::new();
        let mut given = Vec::new();
        let mut brought = Vec::new();
        for b in 0..=hops {
            let route = choice.get(style).copied().unwrap_or_else(|| self.random.pick(&choice));
            let coefficients = self.analyse_block(route, n, x, joints, b);
            // one hop is pushed from both of its blocks
            let place = if b == pushed { m + target } else { target };
            brought.push(self.changed(n, &coefficients, q, kind, place));
            given.push(coefficients);
            routes.push(route);
        }
        let trip = Trip { n, x, joints, q, routes, brought };
        let orders = arrivals(&mut self.random, hops + 1);
        let chosen = self.random.below(orders.len());
        let returned = self.delivered(n, &trip.brought, joints, &orders[chosen]);
        for h in 0..hops {
            trip.near(h, &returned[h + 1], "a list of steps");
        }
        if joints.iter().all(|&shape| shape == LONG) {
            self.whole_trip(&trip, choice.get(style).copied(), &given);
        }
    }

    /// The same by the calls over recordings, in either order: there, if one route made every block, to the coefficients given, and back.
    fn whole_trip(&mut self, trip: &Trip, route: Option<Route>, given: &[Vec<i32>]) {
        let m = trip.n / 2;
        let hops = trip.x.len() / m;
        for recording in in_orders(trip.n, hops) {
            if let Some(route) = route {
                assert_eq!(self.analyse_recording(route, recording, trip.x, (hops + 1) * m), (0, recording.laid(given)));
            }
            let (number, sound) = self.synthesise_recording(recording, &recording.laid(&trip.brought), hops * m);
            assert_eq!(number, 0);
            for h in 0..hops {
                trip.near(h, &sound[h * m..h * m + m], "synthesise_recording");
            }
        }
    }

    /// Blocks offered to a fresh stream in the order in which they arrive, over and over while any is taken, with other refused steps in between.
    /// A block is taken exactly if its number is how many were taken before it. The hops that came back.
    fn delivered(&mut self, n: usize, blocks: &[Vec<i32>], joints: &[u32], order: &[usize]) -> Vec<Vec<i16>> {
        let mut state = self.fresh_state(n);
        let mut hops = Vec::new();
        loop {
            let before = hops.len();
            for &b in order {
                if self.random.one_in(3) {
                    self.refused_step(&state);
                }
                let (number, hop) = self.stream_step(&mut state, b as u32, about(joints, b), &blocks[b], n / 2);
                assert_eq!(number, if b == hops.len() { 0 } else { 7 });
                if number == 0 {
                    hops.push(hop);
                }
            }
            if hops.len() == before {
                return hops;
            }
        }
    }

    /// A step that is refused for its number, a shape, a length or a coefficient leaves the stream as it was.
    fn refused_step(&mut self, state: &[i64]) {
        let mut offer = Offer::good(&mut self.random, state);
        let cause = self.random.pick(&[2, 3, 4, 5]);
        offer.damage(&mut self.random, cause);
        let before = offer.state.clone();
        assert_eq!(self.offer(&mut offer), CAUSES[cause]);
        assert_eq!(offer.state, before);
    }

    /// Blocks shuffled, repeated, late and missing. The sound is that of the recording, up to the block that is missing.
    fn out_of_order(&mut self, n: usize) {
        let m = n / 2;
        for hops in [1, 2, 5, 20] {
            let x = samples(&mut self.random, hops * m);
            let joints = joints(&mut self.random, hops + 1);
            let blocks: Vec<Vec<i32>> = (0..=hops).map(|b| self.analyse_block(Route::Direct, n, &x, &joints, b)).collect();
            for order in arrivals(&mut self.random, hops + 1) {
                let returned = self.delivered(n, &blocks, &joints, &order);
                assert_eq!(returned[1..].concat(), x);
                let missing = self.random.below(hops + 1);
                let rest: Vec<usize> = order.into_iter().filter(|&b| b != missing).collect();
                assert_eq!(self.delivered(n, &blocks, &joints, &rest), returned[..missing]);
            }
        }
    }

    /// A recording there and back at long joints, and in a mixture.
    fn round_trip_by_joints(&mut self, n: usize, x: &[i16], q: i64) {
        let blocks = x.len() / (n / 2) + 1;
        let mixture = joints(&mut self.random, blocks);
        self.round_trip(n, x, &vec![LONG; blocks + 1], q);
        self.round_trip(n, x, &mixture, q);
    }

    fn round_trips(&mut self, n: usize) {
        let m = n / 2;
        // an impulse at every place, the first and the last of the recording among them
        for hops in [1, 3] {
            for at in 0..hops * m {
                for size in [1, -1, 32767, -32768] {
                    let mut x = vec![0; hops * m];
                    x[at] = size;
                    self.round_trip_by_joints(n, &x, 7);
                }
            }
        }
        let sizes = [0, 1, 7, 8, 9, 15, 16, 23, 24, 40, 100, 1000, 65_536, 10_000_000, 300_000_000];
        for q in sizes {
            for hops in [1, 2, 3, 4, 12] {
                for _ in 0..5 {
                    let x = samples(&mut self.random, hops * m);
                    self.round_trip_by_joints(n, &x, q);
                }
            }
        }
        // long lists
        for q in [0, 7, 100] {
            let x = samples(&mut self.random, 120 * m);
            self.round_trip_by_joints(n, &x, q);
        }
    }
}

/// The number of calls compared.
pub fn run(bank: Bank, seed: u64) -> u64 {
    let mut compare = Compare { bank, random: Random::new(seed), calls: 0 };
    compare.fresh();
    for n in LENGTHS {
        compare.blocks(n);
        compare.steps(n);
        compare.forged(n);
        compare.forged_halves(n);
        compare.forged_numbers(n);
        compare.forged_shapes(n);
        compare.causes(n);
        compare.out_of_order(n);
        compare.recordings(n);
        compare.pages(n);
        compare.round_trips(n);
        compare.step_tables(n);
        compare.shares(n);
        compare.orders(n);
        compare.coarsest(n);
        compare.floats(n);
    }
    compare.calls
}
