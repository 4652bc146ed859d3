//! The call on shares (document 02, P9).
use super::*;
use crate::reference::Changes;
use crate::tables::table;

/// The largest change, from one limit of a coefficient to the other.
const WHOLE: i128 = 2 * COEFFICIENT_LIMIT as i128;

/// A block, 0 the earlier and 1 the later, and one of its coefficients.
type Place = (usize, usize);

/// What the call is asked.
#[derive(Clone, Debug)]
struct Question {
    n: usize,
    shape: u32,
    lists: [Vec<i32>; 4],
    place: usize,
    /// of the room
    length: usize,
}

/// What the call returns for each of its causes, in the order in which they are tested: N, the shape, a length or the place, a coefficient.
const SHARE_CAUSES: [u32; 4] = [1, 8, 2, 3];

impl Question {
    /// Two blocks that do not change, and what is asked of them all as it should be.
    fn still(random: &mut Random, n: usize, shape: u32, place: usize) -> Question {
        let [first, second] = [0; 2].map(|_| coefficients(random, n / 2));
        Question { n, shape, lists: [first.clone(), first, second.clone(), second], place, length: 3 }
    }

    /// Lets a coefficient change by this much, up or down, anywhere within its limits.
    fn change(&mut self, random: &mut Random, (block, k): Place, size: i128) {
        let limit = i64::from(COEFFICIENT_LIMIT);
        let low = random.between(-limit, limit - size as i64);
        let (original, changed) = (2 * block, 2 * block + 1);
        let (below, above) = if random.one_in(2) { (original, changed) } else { (changed, original) };
        self.lists[below][k] = low as i32;
        self.lists[above][k] = (low + size as i64) as i32;
    }

    fn changes(&self) -> Changes<'_> {
        self.lists.each_ref().map(Vec::as_slice)
    }

    /// Brings about one of SHARE_CAUSES. Several go from the last to the first, since N and the lists then no longer say what the rest should be.
    fn damage(&mut self, random: &mut Random, cause: usize) {
        let m = self.n / 2;
        match (cause, random.below(6)) {
            (0, _) => self.n = random.pick(&WRONG_N),
            (1, _) => self.shape = random.pick(&NO_SHAPES),
            (2, 4) => self.length = wrong_length(random, self.length),
            (2, 5) => self.place = random.pick(&[m, m + 1, self.n - 1, self.n, 1 << 32, (1 << 32) + self.place, 1 << 63, usize::MAX]),
            (2, list) => self.lists[list].resize(wrong_length(random, m), 0),
            (_, list) => self.lists[list % 4][random.below(m)] = random.pick(&BEYOND),
        }
    }
}

/// Fractions near a/b, each nearer than the one before it, the last equal to it.
fn convergents(mut a: i128, mut b: i128) -> Vec<(i128, i128)> {
    let (mut before, mut last) = ((0, 1), (1, 0));
    let mut found = Vec::new();
    while b != 0 {
        let part = a / b;
        (before, last) = (last, (part * last.0 + before.0, part * last.1 + before.1));
        (a, b) = (b, a % b);
        found.push(last);
    }
    found
}

impl Compare {
    fn largest_share(&mut self, question: &Question) -> (u32, Vec<u32>) {
        let &Question { n, shape, place, length, .. } = question;
        let output = self.rubbish(length, |z| z as u32);
        // beyond the limit, so that an entry beside a list would be 3
        let mut lent = question.lists.each_ref().map(|x| Lent::new(x, i32::MAX));
        let library = |_: &[u8], named: &mut [u32]| {
            let changes = lent.each_mut().map(|x| &*x.part());
            library::largest_share(n, shape, changes, place, named)
        };
        let told = self.call("largest_share", question, &[], output, library, |bank, _, named| {
            bank.largest_share(n, shape, question.changes(), place, named)
        });
        if !lent.iter().all(Lent::kept) {
            mismatch("largest_share", question, &"wrote to its lists", &told);
        }
        told
    }

    fn due_share(&mut self, question: &Question, due: [u32; 3]) {
        let told = self.largest_share(question);
        if told != (0, due.to_vec()) {
            mismatch("largest_share", question, &told, &due);
        }
        if due == [0; 3] {
            self.same_sample(question);
        }
    }

    /// The hop that two blocks cover.
    fn heard(&mut self, n: usize, shape: u32, first: &[i32], second: &[i32]) -> Vec<i16> {
        let mut state = self.fresh_state(n);
        self.next_step(&mut state, (LONG, shape), first);
        self.stream_step(&mut state, 1, (shape, LONG), second, n / 2).1
    }

    /// The sample comes back alike from the original and from the changed coefficients.
    fn same_sample(&mut self, question: &Question) {
        let &Question { n, shape, place, .. } = question;
        let [first, first_changed, second, second_changed] = question.changes();
        let original = self.heard(n, shape, first, second)[place];
        let changed = self.heard(n, shape, first_changed, second_changed)[place];
        if original != changed {
            mismatch("a sample without a share", question, &changed, &original);
        }
    }

    /// The size of K × W at a place.
    fn weight(&self, n: usize, shape: u32, place: usize, (block, k): Place) -> i128 {
        let share_of_one = |lists: [&[i32]; 4]| self.bank.shares(n, shape, lists, place)[block * n / 2 + k];
        let (zeros, ones) = (vec![0; n / 2], vec![1; n / 2]);
        share_of_one([&zeros, &ones, &zeros, &ones])
    }

    /// Two changes alone, with what is due for their shares: the larger one, the first of equal ones, or none.
    fn two_changes(&mut self, n: usize, shape: u32, place: usize, pair: [(Place, i128); 2]) {
        let mut question = Question::still(&mut self.random, n, shape, place);
        for (at, size) in pair {
            question.change(&mut self.random, at, size);
        }
        let [(one, a), (two, b)] = pair.map(|(at, size)| (at, size * self.weight(n, shape, place, at)));
        let named = if a > b || a == b && one < two { one } else { two };
        let due = if a.max(b) == 0 { [0; 3] } else { [1, named.0 as u32, named.1 as u32] };
        self.due_share(&question, due);
    }

    /// Equal shares of two coefficients, where changes within the limits make them so, the nearest to equal ones, and one more or less.
    fn near_tie(&mut self, n: usize, shape: u32, place: usize, [one, two]: [Place; 2]) {
        let [a, b] = [one, two].map(|at| self.weight(n, shape, place, at));
        let taken = convergents(b, a).into_iter().filter(|&(d, e)| d > 0 && e > 0 && d <= WHOLE && e <= WHOLE).collect::<Vec<_>>();
        for &(d, e) in taken.iter().rev().take(3) {
            let most = WHOLE / d.max(e);
            for times in [1, most, self.random.between(1, most as i64) as i128] {
                let (d, e) = (d * times, e * times);
                for (d, e) in [(d, e), (d + 1, e), (d, e + 1), (d - 1, e), (d, e - 1)] {
                    if d <= WHOLE && e <= WHOLE {
                        self.two_changes(n, shape, place, [(one, d), (two, e)]);
                    }
                }
            }
        }
    }

    /// Any coefficient of a block.
    fn some_coefficient(&mut self, n: usize, block: usize) -> Place {
        (block, self.random.below(n / 2))
    }

    fn ties(&mut self, n: usize) {
        for shape in SHAPES {
            for place in 0..n / 2 {
                for blocks in [[0, 0], [1, 1], [0, 1], [1, 0]] {
                    let pair = blocks.map(|block| self.some_coefficient(n, block));
                    if pair[0] != pair[1] {
                        self.near_tie(n, shape, place, pair);
                    }
                }
            }
        }
    }

    /// The same change everywhere, in either block or both: the largest K of many equal ones, and nothing where W is 0.
    fn equal_changes(&mut self, n: usize) {
        for shape in SHAPES {
            for place in 0..n / 2 {
                let any = i128::from(self.random.between(1, WHOLE as i64));
                for size in [1, WHOLE, any] {
                    for blocks in [&[0][..], &[1], &[0, 1]] {
                        let mut question = Question::still(&mut self.random, n, shape, place);
                        for at in blocks.iter().flat_map(|&block| (0..n / 2).map(move |k| (block, k))) {
                            question.change(&mut self.random, at, size);
                        }
                        self.largest_share(&question);
                    }
                }
            }
        }
    }

    /// One change, of any size: its coefficient is named, unless W is 0 there; and none.
    fn single_changes(&mut self, n: usize) {
        for at in [0, 1].into_iter().flat_map(|block| (0..n / 2).map(move |k| (block, k))) {
            for shape in SHAPES {
                let place = self.random.below(n / 2);
                let any = i128::from(self.random.between(1, WHOLE as i64));
                let size = self.random.pick(&[1, any, WHOLE]);
                let other = (1 - at.0, self.random.below(n / 2));
                self.two_changes(n, shape, place, [(at, size), (other, 0)]);
                self.two_changes(n, shape, place, [(at, 0), (other, 0)]);
            }
        }
    }

    /// The call with anything, mostly as it should be: loud, quiet, random or few changes.
    fn some_shares(&mut self, n: usize) {
        let m = n / 2;
        for _ in 0..4000 {
            let (shape, place) = (self.random.pick(&SHAPES), self.random.below(m));
            let mut question = Question::still(&mut self.random, n, shape, place);
            let few = self.random.one_in(3);
            for list in 0..4 {
                if !few {
                    question.lists[list] = coefficients(&mut self.random, m);
                } else if let size @ 1.. = self.random.below(4) {
                    let at = (list / 2, self.random.below(m));
                    question.change(&mut self.random, at, WHOLE >> (7 * size));
                }
            }
            if self.random.one_in(4) {
                let cause = self.random.below(SHARE_CAUSES.len());
                question.damage(&mut self.random, cause);
            }
            self.largest_share(&question);
        }
    }

    /// Every choice of the causes: the first of them is returned.
    fn share_causes(&mut self, n: usize) {
        for (chosen, due) in choices(&SHARE_CAUSES).into_iter().flat_map(|choice| vec![choice; 60]) {
            let (shape, place) = (self.random.pick(&SHAPES), self.random.below(n / 2));
            let mut question = Question::still(&mut self.random, n, shape, place);
            chosen.iter().rev().for_each(|&cause| question.damage(&mut self.random, cause));
            assert_eq!(self.largest_share(&question).0, due);
        }
        // every length of a list and every N near a tabled one, with all else as it should be
        for length in 0..n {
            for list in 0..4 {
                let mut question = Question::still(&mut self.random, n, LONG, 0);
                question.lists[list].resize(length, 7);
                assert_eq!(self.largest_share(&question).0, if length == n / 2 { 0 } else { 2 });
            }
        }
        for named in (0..300).chain(WRONG_N) {
            let mut question = Question::still(&mut self.random, n, LONG, 0);
            question.n = named;
            self.largest_share(&question);
        }
    }

    /// A coefficient at its limits and beyond them, in each list and at every place.
    fn limit_shares(&mut self, n: usize) {
        for (list, k) in (0..4).flat_map(|list| (0..n / 2).map(move |k| (list, k))) {
            for size in [COEFFICIENT_LIMIT, -COEFFICIENT_LIMIT].into_iter().chain(BEYOND) {
                let mut question = Question::still(&mut self.random, n, LONG, k);
                question.lists[list][k] = size;
                let taken = size.unsigned_abs() <= COEFFICIENT_LIMIT.unsigned_abs();
                assert_eq!(self.largest_share(&question).0, if taken { 0 } else { 3 });
            }
        }
    }

    /// Blocks as they were analysed and as they come back from levels: asked of every sample. One that moved has a share.
    fn stepped_shares(&mut self, n: usize) {
        let m = n / 2;
        for shape in SHAPES.into_iter().flat_map(|shape| [shape; 6]) {
            let x = samples(&mut self.random, n + m);
            let analysed = [(&x[..n], (LONG, shape)), (&x[m..], (shape, LONG))].map(|(x, shapes)| self.analyse(Route::Direct, n, shapes, x, m).1);
            let restored = analysed.each_ref().map(|x| {
                let table = table(&mut self.random, m);
                let (_, levels) = self.quantise(n, &table, x, m);
                self.dequantise(n, &table, &levels, m).1
            });
            let ([first, second], [first_changed, second_changed]) = (analysed, restored);
            let original = self.heard(n, shape, &first, &second);
            let changed = self.heard(n, shape, &first_changed, &second_changed);
            let lists = [first, first_changed, second, second_changed];
            for place in 0..m {
                let question = Question { n, shape, lists: lists.clone(), place, length: 3 };
                let (number, named) = self.largest_share(&question);
                assert_eq!(number, 0);
                assert!(named[0] == 1 || original[place] == changed[place]);
            }
        }
    }

    pub fn shares(&mut self, n: usize) {
        self.ties(n);
        self.equal_changes(n);
        self.single_changes(n);
        self.some_shares(n);
        self.share_causes(n);
        self.limit_shares(n);
        self.stepped_shares(n);
    }
}
