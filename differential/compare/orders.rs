//! The orders of a recording's coefficients (document 02, P10): the calls in either one, `reorder`, and shares over recordings.
use super::*;
use crate::reference::BY_BLOCK;

/// What `reorder` and the call on shares return for each of their causes, in the order in which they are tested: N; hops, an order, a length, a hop
/// or a place; a coefficient.
const ORDER_CAUSES: [u32; 3] = [1, 2, 3];

/// How many coefficients a recording has.
fn long(recording: Recording) -> usize {
    (recording.hops + 1) * (recording.n / 2)
}

/// Damages the hops or the order that a call is told.
fn mistell(random: &mut Random, told: &mut Recording) {
    if random.one_in(2) {
        told.order = random.pick(&NO_ORDERS);
    } else {
        told.hops = wrong_hops(random, told.hops);
    }
}

/// What is asked of a sample of a recording.
#[derive(Clone, Debug)]
struct Sample {
    told: Recording,
    /// the original coefficients and the changed ones
    lists: [Vec<i32>; 2],
    hop: usize,
    place: usize,
    /// of the room
    length: usize,
}

impl Sample {
    /// A recording of which few coefficients change, or all, and a sample of it, all as it should be.
    fn good(random: &mut Random, told: Recording) -> Sample {
        let original = coefficients(random, long(told));
        let mut changed = if random.one_in(3) { coefficients(random, long(told)) } else { original.clone() };
        for _ in 0..random.below(5) {
            changed[random.below(long(told))] = random.pick(&[COEFFICIENT_LIMIT, -COEFFICIENT_LIMIT, 0, 1]);
        }
        let (hop, place) = (random.below(told.hops), random.below(told.n / 2));
        Sample { told, lists: [original, changed], hop, place, length: 3 }
    }

    fn lists(&self) -> [&[i32]; 2] {
        self.lists.each_ref().map(Vec::as_slice)
    }

    /// The same in the other order.
    fn turned(&self) -> Sample {
        let told = self.told.turned();
        Sample { told, lists: self.lists().map(|x| told.laid(&self.told.blocks(x))), ..self.clone() }
    }

    /// Brings about one of ORDER_CAUSES. Several go from the last to the first.
    fn damage(&mut self, random: &mut Random, cause: usize) {
        let (m, hops) = (self.told.n / 2, self.told.hops);
        match (cause, random.below(6)) {
            (0, _) => self.told.n = random.pick(&WRONG_N),
            (1, 0) => self.length = wrong_length(random, self.length),
            (1, 1) => self.place = random.pick(&[m, m + 1, 2 * m, (1 << 32) + self.place, 1 << 63, usize::MAX]),
            (1, 2) => self.hop = random.pick(&[hops, hops + 1, HOPS, HOPS + 1, (1 << 32) + self.hop, 1 << 63, usize::MAX]),
            (1, 3) => mistell(random, &mut self.told),
            (1, list) => self.lists[list - 4].resize(wrong_length(random, long(self.told)), 0),
            (_, list) => {
                let at = random.below(self.lists[list % 2].len());
                self.lists[list % 2][at] = random.pick(&BEYOND);
            }
        }
    }
}

impl Compare {
    fn reorder(&mut self, to: Recording, x: &[i32], length: usize) -> (u32, Vec<i32>) {
        let output = self.rubbish32(length);
        let library = |x: &[i32], out: &mut [i32]| library::reorder(to, x, out);
        self.call("reorder", &to, x, output, library, |bank, x, out| bank.reorder(to, x, out))
    }

    fn largest_share_recording(&mut self, sample: &Sample) -> (u32, Vec<u32>) {
        let &Sample { told, hop, place, length, .. } = sample;
        let output = self.rubbish(length, |z| z as u32);
        // beyond the limit, so that an entry beside a list would be 3
        let mut lent = sample.lists().map(|x| Lent::new(x, i32::MAX));
        let library = |_: &[u8], named: &mut [u32]| {
            let lists = lent.each_mut().map(|x| &*x.part());
            library::largest_share_recording(told, lists, hop, place, named)
        };
        let answer = self.call("largest_share_recording", sample, &[], output, library, |bank, _, named| {
            bank.largest_share_recording(told, sample.lists(), hop, place, named)
        });
        if !lent.iter().all(Lent::kept) {
            mismatch("largest_share_recording", sample, &"wrote to its lists", &answer);
        }
        answer
    }

    /// There and back, and each coefficient at its place, which the entries' own numbers tell.
    fn there_and_back(&mut self, recording: Recording) {
        let (Recording { n, hops, .. }, count) = (recording, long(recording));
        let x = coefficients(&mut self.random, count);
        let (number, reordered) = self.reorder(recording, &x, count);
        assert_eq!((number, self.reorder(recording.turned(), &reordered, count)), (0, (0, x)));
        let places: Vec<i32> = (0..count as i32).collect();
        let (_, reordered) = self.reorder(recording, &places, count);
        let (m, blocks) = (n / 2, hops + 1);
        for (b, k) in (0..blocks).flat_map(|b| (0..m).map(move |k| (b, k))) {
            let (by_block, by_frequency) = (b * m + k, k * blocks + b);
            let (to, from) = if recording.order == BY_BLOCK { (by_block, by_frequency) } else { (by_frequency, by_block) };
            assert_eq!(reordered[to], from as i32);
        }
    }

    /// With anything, mostly as it should be, and every choice of the causes.
    fn some_reorders(&mut self, n: usize, hops: usize) {
        for _ in 0..150 {
            let (count, length) = (self.some_length((hops + 1) * n / 2), self.some_length((hops + 1) * n / 2));
            let x = self.some_coefficients(count);
            let told = self.some_told(n, hops);
            self.reorder(told, &x, length);
        }
        let either = |choice: (Vec<usize>, u32)| in_orders(n, hops).map(|recording| (recording, choice.clone()));
        for (recording, (causes, due)) in choices(&ORDER_CAUSES).into_iter().flat_map(either) {
            for way in 0..9 {
                let (mut told, mut length) = (recording, long(recording));
                let mut x = coefficients(&mut self.random, length);
                for &cause in causes.iter().rev() {
                    match (cause, way % 3) {
                        (0, _) => told.n = self.random.pick(&WRONG_N),
                        (1, 0) => mistell(&mut self.random, &mut told),
                        (1, 1) => length = wrong_length(&mut self.random, length),
                        (1, _) => x.resize(wrong_length(&mut self.random, length), 0),
                        _ => x[self.random.below(length)] = self.random.pick(&BEYOND),
                    }
                }
                assert_eq!(self.reorder(told, &x, length).0, due);
            }
        }
    }

    /// A coefficient at its limits and beyond them, at every place.
    fn reordered_limits(&mut self, recording: Recording) {
        let count = long(recording);
        for at in 0..count {
            for size in [COEFFICIENT_LIMIT, -COEFFICIENT_LIMIT].into_iter().chain(BEYOND) {
                let mut x = coefficients(&mut self.random, count);
                x[at] = size;
                let taken = size.unsigned_abs() <= COEFFICIENT_LIMIT.unsigned_abs();
                assert_eq!(self.reorder(recording, &x, count).0, if taken { 0 } else { 3 });
            }
        }
    }

    /// Numbers of hops that are none, with the lengths that their products wrap round to and with those of one hop.
    fn wrapping_hops(&mut self, n: usize) {
        for recording in WRAPPING_HOPS.into_iter().flat_map(|hops| in_orders(n, hops)) {
            for count in [recording.hops.wrapping_add(1).wrapping_mul(n / 2), n] {
                if count < 1000 {
                    let x = coefficients(&mut self.random, count);
                    assert_eq!(self.reorder(recording, &x, count).0, 2);
                    let sample = Sample { told: recording, lists: [x.clone(), x], hop: 0, place: 0, length: 3 };
                    assert_eq!(self.largest_share_recording(&sample).0, 2);
                }
            }
        }
    }

    /// The numbers that each call over recordings returns to what it is told, with these coefficients, which the analyses do not take, and all else
    /// as it should be.
    fn answers(&mut self, told: Recording, recording: Recording, x: &[i32]) -> [u32; 7] {
        let Recording { n, hops, .. } = recording;
        let sound = samples(&mut self.random, hops * n / 2);
        let [direct, short, double] = ROUTES.map(|route| self.analyse_recording(route, told, &sound, long(recording)).0);
        let back = self.synthesise_recording(told, x, hops * n / 2).0;
        let printed = self.page(told, x, page_length(n, hops)).0;
        let reordered = self.reorder(told, x, long(recording)).0;
        let sample = Sample { told, lists: [x.to_vec(), x.to_vec()], hop: hops - 1, place: 0, length: 3 };
        [direct, short, double, back, printed, reordered, self.largest_share_recording(&sample).0]
    }

    /// A number that is no order is 2: behind an N that is not tabled, and before a coefficient beyond its limit.
    fn wrong_orders(&mut self, n: usize, hops: usize) {
        let [direct, short, double] = ROUTES.map(|route| if offered(route, n) { 2 } else { 1 });
        let due = [direct, short, double, 2, 2, 2, 2];
        for order in NO_ORDERS {
            let recording = Recording { n, hops, order };
            let mut x = coefficients(&mut self.random, long(recording));
            assert_eq!(self.answers(recording, recording, &x), due);
            let untabled = self.random.pick(&WRONG_N);
            assert_eq!(self.answers(Recording { n: untabled, ..recording }, recording, &x), [1; 7]);
            x[self.random.below(long(recording))] = self.random.pick(&BEYOND);
            assert_eq!(self.answers(recording, recording, &x), due);
        }
    }

    /// What the calls give of one recording in either order: the same samples and the same page, and analyses whose coefficients are alike.
    fn either_order(&mut self, n: usize, hops: usize) {
        let [by_block, by_frequency] = in_orders(n, hops);
        let sound = samples(&mut self.random, hops * n / 2);
        for route in routes_of(n) {
            let [blocks, bands] = [by_block, by_frequency].map(|recording| self.analyse_recording(route, recording, &sound, long(recording)).1);
            assert_eq!(self.reorder(by_frequency, &blocks, bands.len()), (0, bands.clone()));
            assert_eq!(self.reorder(by_block, &bands, blocks.len()), (0, blocks));
        }
        let blocks = coefficients(&mut self.random, long(by_block));
        let (_, bands) = self.reorder(by_frequency, &blocks, blocks.len());
        let both = [(by_block, &blocks), (by_frequency, &bands)];
        let [one, two] = both.map(|(recording, x)| self.synthesise_recording(recording, x, hops * n / 2));
        assert_eq!(one, two);
        let [one, two] = both.map(|(recording, x)| self.page(recording, x, page_length(n, hops)));
        assert_eq!(one, two);
    }

    /// A sample that is asked about in either order, which is named alike, and as the two blocks that cover it alone are.
    fn explained(&mut self, sample: &Sample) -> [u32; 3] {
        let (number, named) = self.largest_share_recording(sample);
        assert_eq!(self.largest_share_recording(&sample.turned()), (number, named.clone()));
        let [original, changed] = sample.lists().map(|x| sample.told.blocks(x));
        let (h, mut alone) = (sample.hop, [0; 3]);
        let changes = [&original[h][..], &changed[h], &original[h + 1], &changed[h + 1]];
        assert_eq!((number, library::largest_share(sample.told.n, LONG, changes, sample.place, &mut alone)), (0, 0));
        alone[1] += alone[0] * h as u32;
        assert_eq!(named, alone);
        alone
    }

    /// One change, at every place of a recording: named of the samples of the hops that its block covers, and of no other.
    fn lone_changes(&mut self, recording: Recording) {
        let (n, hops) = (recording.n, recording.hops);
        for (b, k) in (0..=hops).flat_map(|b| (0..n / 2).map(move |k| (b, k))) {
            let mut sample = Sample::good(&mut self.random, recording);
            let mut blocks = recording.blocks(&sample.lists[0]);
            blocks[b][k] = if blocks[b][k] > 0 { -1 } else { 1 };
            sample.lists[1] = recording.laid(&blocks);
            for hop in 0..hops {
                sample.hop = hop;
                let covers = b == hop || b == hop + 1;
                assert_eq!(self.explained(&sample), if covers { [1, b as u32, k as u32] } else { [0; 3] });
            }
        }
    }

    /// Every sample of a recording, some of whose coefficients change: one that moved has a share.
    fn moved_samples(&mut self, recording: Recording) {
        let m = recording.n / 2;
        let mut sample = Sample::good(&mut self.random, recording);
        let [original, changed] = sample.lists().map(|x| self.synthesise_recording(recording, x, recording.hops * m).1);
        for at in 0..original.len() {
            (sample.hop, sample.place) = (at / m, at % m);
            let named = self.explained(&sample);
            assert!(named[0] == 1 || original[at] == changed[at]);
        }
    }

    /// The call on shares with anything, mostly as it should be, and every choice of its causes.
    fn some_samples(&mut self, recording: Recording) {
        for _ in 0..100 {
            let mut sample = Sample::good(&mut self.random, recording);
            if self.random.one_in(4) {
                let cause = self.random.below(ORDER_CAUSES.len());
                sample.damage(&mut self.random, cause);
                self.largest_share_recording(&sample);
            } else {
                self.explained(&sample);
            }
        }
        for (causes, due) in choices(&ORDER_CAUSES).into_iter().flat_map(|choice| vec![choice; 25]) {
            let mut sample = Sample::good(&mut self.random, recording);
            causes.iter().rev().for_each(|&cause| sample.damage(&mut self.random, cause));
            assert_eq!(self.largest_share_recording(&sample).0, due);
        }
    }

    /// A coefficient at its limits and beyond them, at every place of either list, whichever the hop.
    fn sample_limits(&mut self, recording: Recording) {
        for (list, at) in (0..2).flat_map(|list| (0..long(recording)).map(move |at| (list, at))) {
            for size in [COEFFICIENT_LIMIT, -COEFFICIENT_LIMIT].into_iter().chain(BEYOND) {
                let mut sample = Sample::good(&mut self.random, recording);
                sample.lists[list][at] = size;
                let taken = size.unsigned_abs() <= COEFFICIENT_LIMIT.unsigned_abs();
                assert_eq!(self.largest_share_recording(&sample).0, if taken { 0 } else { 3 });
            }
        }
    }

    /// The longest recording, at its ends and anywhere, and the hop behind it.
    fn longest_samples(&mut self, n: usize) {
        let order = self.random.pick(&ORDERS);
        let mut sample = Sample::good(&mut self.random, Recording { n, hops: HOPS, order });
        for hop in [0, 1, HOPS - 1, sample.hop] {
            (sample.hop, sample.place) = (hop, self.random.below(n / 2));
            self.explained(&sample);
        }
        sample.hop = HOPS;
        assert_eq!(self.largest_share_recording(&sample).0, 2);
        sample.hop = 0;
        *sample.lists[1].last_mut().expect("a recording has coefficients") = COEFFICIENT_LIMIT + 1;
        assert_eq!(self.largest_share_recording(&sample).0, 3);
    }

    pub fn orders(&mut self, n: usize) {
        for hops in [1, 2, 3] {
            self.some_reorders(n, hops);
            self.wrong_orders(n, hops);
            for recording in in_orders(n, hops) {
                self.reordered_limits(recording);
                self.lone_changes(recording);
                self.moved_samples(recording);
                self.some_samples(recording);
                self.sample_limits(recording);
            }
        }
        for hops in [1, 2, 3, 20, HOPS] {
            self.either_order(n, hops);
            in_orders(n, hops).into_iter().for_each(|recording| self.there_and_back(recording));
        }
        self.wrapping_hops(n);
        self.longest_samples(n);
    }
}
