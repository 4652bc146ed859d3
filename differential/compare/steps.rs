//! The calls over step tables (document 02, P8).
use super::*;
use crate::reference::{distance, steps, DOUBLE_LENGTHS, LARGEST_STEP};
use crate::tables::*;

/// A table as it is written.
struct Written<'a>(&'a [u8]);

impl Debug for Written<'_> {
    fn fmt(&self, f: &mut std::fmt::Formatter) -> std::fmt::Result {
        write!(f, "\"{}\"", self.0.escape_ascii())
    }
}

/// What refuses a step on levels, in the order in which it is tested: places of CAUSES, and where there is none the table.
const LEVEL_CAUSES: [Option<usize>; 6] = [Some(0), Some(1), Some(2), Some(3), None, Some(4)];

/// A recording on its way as levels: the joints, the routes and the tables of its blocks.
struct Stored<'a> {
    n: usize,
    x: &'a [i16],
    joints: &'a [u32],
    routes: Vec<Route>,
    tables: Vec<Vec<u8>>,
    levels: Vec<Vec<i32>>,
}

/// The number of a route for C.
fn numbered(route: Route) -> u32 {
    match route {
        Route::Direct => 0,
        Route::Short => 1,
        Route::Double => 2,
    }
}

impl Compare {
    /// One call that is lent a table too. The line feeds about it end a line that has none.
    fn call_with_table<I: Copy + PartialEq + Debug + Default, O: Copy + PartialEq + Debug + Default>(
        &mut self,
        name: &str,
        numbers: &dyn Debug,
        (table, input): (&[u8], &[I]),
        output: Vec<O>,
        library: impl FnOnce(&[u8], &[I], &mut [O]) -> u32,
        reference: impl FnOnce(&Bank, &[I], &mut [O]) -> u32,
    ) -> (u32, Vec<O>) {
        let mut lent = Lent::new(table, b'\n');
        let handed = (numbers, Written(table));
        let told = self.call(name, &handed, input, output, |x, out| library(lent.part(), x, out), reference);
        if !lent.kept() {
            mismatch(name, &(handed, input), &"wrote to its table", &told);
        }
        told
    }

    pub fn quantise(&mut self, n: usize, table: &[u8], x: &[i32], length: usize) -> (u32, Vec<i32>) {
        let output = self.rubbish32(length);
        let library = |table: &[u8], x: &[i32], out: &mut [i32]| library::quantise(n, table, x, out);
        self.call_with_table("quantise", &n, (table, x), output, library, |bank, x, out| bank.quantise(n, table, x, out))
    }

    pub fn dequantise(&mut self, n: usize, table: &[u8], levels: &[i32], length: usize) -> (u32, Vec<i32>) {
        let output = self.rubbish32(length);
        let library = |table: &[u8], x: &[i32], out: &mut [i32]| library::dequantise(n, table, x, out);
        self.call_with_table("dequantise", &n, (table, levels), output, library, |bank, x, out| bank.dequantise(n, table, x, out))
    }

    fn told_distance(&mut self, n: usize, route: u32, table: &[u8], length: usize) -> (u32, Vec<u32>) {
        let output = self.rubbish(length, |z| z as u32);
        let library = |table: &[u8], _: &[u8], out: &mut [u32]| library::told_distance(n, route, table, out);
        self.call_with_table("told_distance", &(n, route), (table, &[]), output, library, |bank, _, out| {
            bank.told_distance(n, route, table, out)
        })
    }

    /// One step on levels by an offer's state, which then holds what the library left. Its coefficients are the levels.
    fn step_levels(&mut self, offer: &mut Offer, table: &[u8]) -> (u32, Vec<i16>) {
        let Offer { state, number, shapes, x, length } = offer;
        let (number, shapes) = (*number, *shapes);
        let output = self.rubbish16(*length);
        let mut lent = Lent::new(state, 0);
        let mut after = state.clone();
        let numbers = (&state, number, shapes);
        let library = |table: &[u8], x: &[i32], out: &mut [i16]| library::stream_step_levels(lent.part(), number, shapes, table, x, out);
        let told = self.call_with_table("stream_step_levels", &numbers, (table, x), output, library, |bank, x, out| {
            bank.stream_step_levels(&mut after, number, shapes, table, x, out)
        });
        if lent.part() != after || !lent.margins_kept() {
            mismatch("stream_step_levels", &(numbers, Written(table), x), &(told.0, lent.part()), &(told.0, after));
        }
        offer.state = after;
        told
    }

    /// The block that a state expects, as levels.
    fn level_offer(&mut self, state: &[i64]) -> Offer {
        let good = Offer::good(&mut self.random, state);
        Offer { x: levels(&mut self.random, good.length), ..good }
    }

    /// Every call with this table and all else as it should be. They agree on the number.
    fn verdict(&mut self, n: usize, table: &[u8]) -> u32 {
        let m = n / 2;
        let x = coefficients(&mut self.random, m);
        let levels = levels(&mut self.random, m);
        let made = state(&mut self.random, n);
        let mut offer = self.level_offer(&made);
        let number = self.step_levels(&mut offer, table).0;
        assert_eq!(self.quantise(n, table, &x, m).0, number);
        assert_eq!(self.dequantise(n, table, &levels, m).0, number);
        for route in routes_of(n) {
            assert_eq!(self.told_distance(n, numbered(route), table, 1).0, number);
        }
        number
    }

    fn due_verdict(&mut self, n: usize, table: &[u8], due: u32) {
        let number = self.verdict(n, table);
        if number != due {
            mismatch("verdict", &(n, Written(table)), &number, &due);
        }
    }

    /// Coefficients to levels and back: each is moved by at most half its step, rounded down.
    fn through_levels(&mut self, n: usize, table: &[u8], x: &[i32]) {
        let (taken, levels) = self.quantise(n, table, x, n / 2);
        let (taken_back, back) = self.dequantise(n, table, &levels, n / 2);
        let steps = steps(n / 2, table).expect("a table that is taken");
        let kept = |k: usize| i64::from(x[k].abs_diff(back[k])) <= steps[k] / 2;
        if (taken, taken_back) != (0, 0) || !(0..n / 2).all(kept) {
            mismatch("to levels and back", &(n, Written(table), x), &(levels, back), &"at most half a step");
        }
    }

    fn taken_tables(&mut self, n: usize) {
        let m = n / 2;
        for _ in 0..150 {
            let table = table(&mut self.random, m);
            self.due_verdict(n, &table, 0);
            let steps = steps(m, &table).expect("a table that is taken");
            let levels: Vec<i32> = steps.iter().map(|&step| one_level(&mut self.random, step)).collect();
            self.dequantise(n, &table, &levels, m);
            for _ in 0..4 {
                let x = coefficients(&mut self.random, m);
                self.through_levels(n, &table, &x);
                let x = half_way(&mut self.random, &steps);
                self.through_levels(n, &table, &x);
            }
        }
    }

    /// Coefficients at their limit and beyond it, at every place, by a step for each of them.
    fn limit_levels(&mut self, n: usize) {
        let m = n / 2;
        for k in 0..m {
            for size in [COEFFICIENT_LIMIT, -COEFFICIENT_LIMIT].into_iter().chain(BEYOND) {
                for length in [m, m + 1] {
                    let table = table(&mut self.random, m);
                    let mut x = coefficients(&mut self.random, m);
                    x[k] = size;
                    self.quantise(n, &table, &x, length);
                }
            }
        }
    }

    fn refused_tables(&mut self, n: usize) {
        let m = n / 2;
        let each: Vec<Line> = (0..m as i64).map(|k| (k, k, 1 + k)).collect();
        for lines in [lines(&mut self.random, m), lines(&mut self.random, m), each, vec![(0, m as i64 - 1, 40)]] {
            for at in 0..lines.len() {
                for (table, due) in faulty_joints(&lines, at) {
                    self.due_verdict(n, &table, due);
                    // a line at fault behind it
                    self.due_verdict(n, &[&table[..], b"0,0,0\n"].concat(), 9);
                    self.due_verdict(n, &[&table[..], b"0,0,1"].concat(), 9);
                }
            }
            for at in [0, lines.len() / 2, lines.len() - 1] {
                for fault in faulty_lines(m, lines[at]) {
                    self.faulty_line(n, &lines, at, &fault);
                }
            }
            let all = text(&lines);
            self.due_verdict(n, &all[..all.len() - 1], 9);
            self.due_verdict(n, &[&all[..], b"-"].concat(), 9);
        }
        self.due_verdict(n, b"", 10);
        self.two_joints(n);
    }

    /// A fault in a line, and about it lines that overlap, a gap, or nothing.
    fn faulty_line(&mut self, n: usize, lines: &[Line], at: usize, fault: &[u8]) {
        let (before, behind) = (text(&lines[..at]), text(&lines[at + 1..]));
        self.due_verdict(n, &[&before, fault, &behind].concat(), 9);
        self.due_verdict(n, &[&before, &before, fault, &behind].concat(), 9);
        self.due_verdict(n, &[fault, &behind].concat(), 9);
        self.due_verdict(n, &[&before, fault, &behind, &before].concat(), 9);
    }

    /// Two joints at fault, at every place: the first decides.
    fn two_joints(&mut self, n: usize) {
        let last = (n / 2 - 1) as i64;
        for place in 0..last {
            let covered: &[Line] = if place > 0 { &[(0, place - 1, 7)] } else { &[] };
            let (gap, again, far) = ((place + 1, place + 1, 1), (0, last, 65_536), (last, last, 2));
            self.due_verdict(n, &text(&[covered, &[gap, again]].concat()), 10);
            self.due_verdict(n, &text(&[covered, &[gap, gap, far]].concat()), 10);
            if place > 0 {
                self.due_verdict(n, &text(&[covered, &[again, gap]].concat()), 11);
                self.due_verdict(n, &text(&[covered, covered, &[far, gap]].concat()), 11);
            }
        }
    }

    fn damaged_tables(&mut self, n: usize) {
        let m = n / 2;
        for _ in 0..1500 {
            let taken = table(&mut self.random, m);
            let once = damaged(&mut self.random, taken);
            self.verdict(n, &once);
            if !once.is_empty() {
                let twice = damaged(&mut self.random, once);
                self.verdict(n, &twice);
            }
            let count = self.random.pick(&[0, 1, 2, 5, 6, 7, 20, 300]);
            let any = bytes(&mut self.random, count);
            self.verdict(n, &any);
            // one for another length
            let other = self.random.other(n, &LENGTHS);
            let foreign = table(&mut self.random, other / 2);
            self.due_verdict(n, &foreign, if other > n { 9 } else { 10 });
        }
    }

    /// Tables of thousands of lines, and of long lines. What stands in the last line decides, if it is at fault.
    fn long_tables(&mut self, n: usize) {
        let m = n / 2;
        let good = table(&mut self.random, m);
        for repeated in [text(&lines(&mut self.random, m)), printed((0, m as i64 - 1, 3)), printed((m as i64 - 1, m as i64 - 1, LARGEST_STEP))] {
            let long = [&good[..], &repeated.repeat(70_000 / repeated.len())].concat();
            self.due_verdict(n, &long, 11);
            let fault = faulty_lines(m, (0, 0, 1));
            for last in fault.iter().step_by(7) {
                self.due_verdict(n, &[&long[..], last].concat(), 9);
            }
            self.due_verdict(n, &[&long[..], b"0,0,1"].concat(), 9);
            self.due_verdict(n, &long[..long.len() - 1], 9);
            let mut late = long;
            let at = late.len() / 2 + self.random.below(late.len() / 2);
            late[at] = b'\r';
            self.due_verdict(n, &late, 9);
        }
        // a gap before anything else
        let far = printed((1, m as i64 - 1, 1));
        self.due_verdict(n, &far.repeat(5000), 10);
        for byte in *b"\n,-019" {
            self.due_verdict(n, &vec![byte; 66_000], 9);
            let line = [&b"0,"[..], &vec![byte; 66_000], b",1\n"].concat();
            self.due_verdict(n, &line, 9);
        }
    }

    /// Every step there is, at the coefficients' limits, at both ends of a level and about a half; and what is told for it.
    fn every_step(&mut self, n: usize) {
        let m = n / 2;
        for step in 1..=LARGEST_STEP {
            let table = printed((0, m as i64 - 1, step));
            let mut x = half_way(&mut self.random, &vec![step; m]);
            x[..4].copy_from_slice(&[COEFFICIENT_LIMIT, -COEFFICIENT_LIMIT, (step / 2) as i32, -(step / 2) as i32]);
            self.through_levels(n, &table, &x);
            let mut levels: Vec<i32> = (0..m).map(|_| one_level(&mut self.random, step)).collect();
            levels[..2].copy_from_slice(&[i32::MIN, i32::MAX]);
            assert_eq!(self.dequantise(n, &table, &levels, m).1[..2], [-COEFFICIENT_LIMIT, COEFFICIENT_LIMIT]);
            for route in routes_of(n) {
                assert_eq!(self.told_distance(n, numbered(route), &table, 1), (0, vec![distance(route, &[step])]));
            }
        }
    }

    fn some_table(&mut self, m: usize) -> Vec<u8> {
        match self.random.below(6) {
            0 => wrong_table(&mut self.random, m).0,
            1 => bytes(&mut self.random, 9),
            2 => Vec::new(),
            _ => table(&mut self.random, m),
        }
    }

    /// The calls with anything, mostly as it should be.
    fn some_table_calls(&mut self, n: usize) {
        let m = n / 2;
        for _ in 0..1500 {
            let (named, table) = (self.some_n(n), self.some_table(m));
            let (count, length) = (self.some_length(m), self.some_length(m));
            let x = self.some_coefficients(count);
            self.quantise(named, &table, &x, length);
            let x = levels(&mut self.random, count);
            self.dequantise(named, &table, &x, length);
            let any = self.random.pick(&NO_ROUTES);
            let (route, length) = (self.random.pick(&[0, 1, 2, any]), self.some_length(1));
            self.told_distance(named, route, &table, length);
        }
        for n in (0..300).chain(WRONG_N) {
            let table = table(&mut self.random, m);
            let (x, levels) = (coefficients(&mut self.random, m), levels(&mut self.random, m));
            self.quantise(n, &table, &x, m);
            self.dequantise(n, &table, &levels, m);
            for route in [0, 1, 2].into_iter().chain(NO_ROUTES) {
                self.told_distance(n, route, &table, 1);
            }
        }
    }

    /// Every choice of the causes of a call over a table: the first of them is returned.
    fn table_causes(&mut self, n: usize) {
        let m = n / 2;
        for choice in (0..16).flat_map(|choice| [choice; 25]) {
            let [untabled, refused, longer, far] = [0, 1, 2, 3].map(|cause| choice >> cause & 1 == 1);
            let named = if untabled { self.random.pick(&WRONG_N) } else { n };
            let (table, cause) = if refused { wrong_table(&mut self.random, m) } else { (table(&mut self.random, m), 0) };
            let length = if longer { wrong_length(&mut self.random, m) } else { m };
            let mut x = coefficients(&mut self.random, m);
            if far {
                x[self.random.below(m)] = self.random.pick(&BEYOND);
            }
            let due = |last: u32| [untabled as u32, cause, 2 * longer as u32, last].into_iter().find(|&cause| cause != 0).unwrap_or(0);
            assert_eq!(self.quantise(named, &table, &x, length).0, due(3 * far as u32));
            assert_eq!(self.dequantise(named, &table, &x, length).0, due(0));
            let (inputs, outputs) = (x.len().min(length), x.len().max(length));
            assert_eq!(self.dequantise(named, &table, &x[..inputs], outputs).0, due(0));
            let length = if longer { wrong_length(&mut self.random, 1) } else { 1 };
            assert_eq!(self.told_distance(named, 0, &table, length).0, due(0));
            let route = self.random.pick(&NO_ROUTES);
            assert_eq!(self.told_distance(named, route, &table, length).0, 1);
        }
    }

    /// Brings about causes of a step on levels, and returns the number due.
    fn damage_levels(&mut self, offer: &mut Offer, table: &mut Vec<u8>, chosen: &[Option<usize>]) -> u32 {
        let m = offer.length;
        let mut due = 0;
        for cause in chosen.iter().rev() {
            due = match *cause {
                Some(cause) => {
                    offer.damage(&mut self.random, cause);
                    CAUSES[cause]
                }
                None => {
                    let wrong = wrong_table(&mut self.random, m);
                    *table = wrong.0;
                    wrong.1
                }
            };
        }
        due
    }

    /// Every choice of the causes of a step on levels.
    fn level_causes(&mut self, n: usize) {
        for choice in (0..1 << LEVEL_CAUSES.len()).flat_map(|choice| [choice; 12]) {
            let chosen = (0..LEVEL_CAUSES.len()).filter(|cause| choice >> cause & 1 == 1).map(|cause| LEVEL_CAUSES[cause]);
            let chosen: Vec<Option<usize>> = chosen.collect();
            let made = state(&mut self.random, n);
            let mut offer = self.level_offer(&made);
            let mut table = table(&mut self.random, n / 2);
            let due = self.damage_levels(&mut offer, &mut table, &chosen);
            assert_eq!(self.step_levels(&mut offer, &table).0, due);
        }
    }

    /// A step on levels that is refused leaves the stream as it was.
    fn refused_levels(&mut self, state: &[i64]) {
        let mut offer = self.level_offer(state);
        let mut table = table(&mut self.random, offer.length);
        let cause = self.random.pick(&LEVEL_CAUSES[2..]);
        let due = self.damage_levels(&mut offer, &mut table, &[cause]);
        let before = offer.state.clone();
        assert_eq!(self.step_levels(&mut offer, &table).0, due);
        assert_eq!(offer.state, before);
    }

    /// A block's levels to a stream by one of the two calls that take it.
    fn offer_levels(&mut self, stored: &Stored, state: &mut Vec<i64>, b: usize) -> (u32, Vec<i16>) {
        let (n, table, levels) = (stored.n, &stored.tables[b], &stored.levels[b]);
        let shapes = about(stored.joints, b);
        if self.random.one_in(4) {
            let (_, x) = self.dequantise(n, table, levels, n / 2);
            return self.stream_step(state, b as u32, shapes, &x, n / 2);
        }
        let mut offer = Offer { state: state.clone(), number: b as u32, shapes, x: levels.clone(), length: n / 2 };
        let told = self.step_levels(&mut offer, table);
        *state = offer.state;
        told
    }

    /// The hops of a fresh stream to which the blocks are offered in this order, over and over while any is taken, refused steps in between.
    fn played(&mut self, stored: &Stored, order: &[usize]) -> Vec<Vec<i16>> {
        let mut state = self.fresh_state(stored.n);
        let mut hops = Vec::new();
        loop {
            let before = hops.len();
            for &b in order {
                if self.random.one_in(3) {
                    self.refused_levels(&state);
                }
                let (number, hop) = self.offer_levels(stored, &mut state, b);
                assert_eq!(number, if b == hops.len() { 0 } else { 7 });
                if number == 0 {
                    hops.push(hop);
                }
            }
            if hops.len() == before {
                return hops;
            }
        }
    }

    /// Hop h came back within the distance told for the coarser table of its two blocks, by the route of theirs that has more units.
    fn within_told(&mut self, stored: &Stored, h: usize, hop: &[i16], how: &str) {
        let Stored { n, x, joints, routes, tables, levels } = stored;
        let route = if units(routes[h]) > units(routes[h + 1]) { routes[h] } else { routes[h + 1] };
        let told = [h, h + 1].map(|b| self.told_distance(*n, numbered(route), &tables[b], 1).1[0]);
        let bound = told[0].max(told[1]);
        let given = &x[h * n / 2..(h + 1) * n / 2];
        if hop.iter().zip(given).any(|(&z, &s)| (i32::from(z) - i32::from(s)).unsigned_abs() > bound) {
            let pair: Vec<Written> = tables[h..h + 2].iter().map(|table| Written(table)).collect();
            mismatch(how, &(n, h, x, joints, routes, pair, levels), &hop, &format_args!("{given:?} within {bound}"));
        }
    }

    /// A recording to levels and back, each block by its own table and route, or all by one.
    fn stored_trip(&mut self, n: usize, x: &[i16], joints: &[u32]) {
        let m = n / 2;
        let hops = x.len() / m;
        let (alike, common) = (self.random.one_in(2), table(&mut self.random, m));
        let mut stored = Stored { n, x, joints, routes: Vec::new(), tables: Vec::new(), levels: Vec::new() };
        let choice = routes_of(n);
        let style = self.random.below(choice.len() + 1);
        for b in 0..=hops {
            let route = choice.get(style).copied().unwrap_or_else(|| self.random.pick(&choice));
            let own = if alike { common.clone() } else { table(&mut self.random, m) };
            let coefficients = self.analyse_block(route, n, x, joints, b);
            let (number, levels) = self.quantise(n, &own, &coefficients, m);
            assert_eq!(number, 0);
            stored.routes.push(route);
            stored.tables.push(own);
            stored.levels.push(levels);
        }
        let orders = arrivals(&mut self.random, hops + 1);
        let chosen = self.random.below(orders.len());
        let returned = self.played(&stored, &orders[chosen]);
        for h in 0..hops {
            self.within_told(&stored, h, &returned[h + 1], "a list of steps on levels");
        }
        if joints.iter().all(|&shape| shape == LONG) {
            self.stored_whole(&stored);
        }
    }

    /// The same by the call over recordings, in either order.
    fn stored_whole(&mut self, stored: &Stored) {
        let (n, m) = (stored.n, stored.n / 2);
        let hops = stored.levels.len() - 1;
        let mut blocks = Vec::new();
        for (table, levels) in stored.tables.iter().zip(&stored.levels) {
            blocks.push(self.dequantise(n, table, levels, m).1);
        }
        for recording in in_orders(n, hops) {
            let (number, sound) = self.synthesise_recording(recording, &recording.laid(&blocks), hops * m);
            assert_eq!(number, 0);
            for h in 0..hops {
                self.within_told(stored, h, &sound[h * m..h * m + m], "synthesise_recording of levels");
            }
        }
    }

    fn stored_trips(&mut self, n: usize) {
        let m = n / 2;
        for hops in [1, 1, 2, 2, 3, 4, 7, 12, 40] {
            for _ in 0..8 {
                let x = samples(&mut self.random, hops * m);
                let mixture = joints(&mut self.random, hops + 1);
                self.stored_trip(n, &x, &mixture);
                self.stored_trip(n, &x, &vec![LONG; hops + 2]);
            }
        }
    }

    pub fn step_tables(&mut self, n: usize) {
        self.taken_tables(n);
        self.limit_levels(n);
        self.refused_tables(n);
        self.damaged_tables(n);
        self.long_tables(n);
        self.some_table_calls(n);
        self.table_causes(n);
        self.level_causes(n);
        self.stored_trips(n);
        // once, at a length that has every route
        if n == DOUBLE_LENGTHS[0] {
            self.every_step(n);
        }
    }
}
