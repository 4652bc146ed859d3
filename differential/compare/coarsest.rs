//! The coarsest step for a recording (document 02, P13).
use super::*;
use crate::reference::{search, LARGEST_ALLOWED, LARGEST_TRIED};

/// What the call returns for each of its causes, in the order in which they are tested: N; hops or a length; the distance.
const SEARCH_CAUSES: [u32; 3] = [1, 2, 12];

/// Distances that may not be allowed, some equal to one that may in their low bits.
const NO_DISTANCES: [u32; 8] = [LARGEST_ALLOWED + 1, 34, 64, 256, 256 + 31, 1 << 16, 1 << 31, u32::MAX];

/// Budgets beyond every search, some of them few in their low bits.
const ENDLESS: [usize; 6] = [2000, 1 << 16, 1 << 32, (1 << 32) + 1, 1 << 63, usize::MAX];

/// What the call is asked.
#[derive(Clone, Debug)]
struct Wanted {
    n: usize,
    hops: usize,
    x: Vec<i16>,
    allowed: u32,
    budget: usize,
    /// of the room
    length: usize,
}

impl Wanted {
    /// All as it should be.
    fn good(n: usize, x: &[i16], allowed: u32, budget: usize) -> Wanted {
        Wanted { n, hops: x.len() / (n / 2), x: x.to_vec(), allowed, budget, length: 3 }
    }

    /// Brings about one of SEARCH_CAUSES. Several go from the last to the first.
    fn damage(&mut self, random: &mut Random, cause: usize) {
        match (cause, random.below(3)) {
            (0, _) => self.n = random.pick(&WRONG_N),
            (1, 0) => self.length = wrong_length(random, self.length),
            (1, 1) => self.x.resize(wrong_length(random, self.x.len()), 7),
            (1, _) => self.hops = wrong_hops(random, self.hops),
            _ => self.allowed = random.pick(&NO_DISTANCES),
        }
    }
}

/// A recording, and by step how far its farthest sample lies from its own.
struct Swept {
    n: usize,
    x: Vec<i16>,
    farthest: Vec<u32>,
}

impl Swept {
    fn passes(&self, step: u32, allowed: u32) -> bool {
        self.farthest[step as usize] <= allowed
    }
}

fn farthest(apart: &[u32]) -> u32 {
    *apart.iter().max().expect("a recording has samples")
}

/// Silence but for one of so many hops of m samples.
fn lone_hop(m: usize, hops: usize, at: usize, hop: &[i16]) -> Vec<i16> {
    let mut x = vec![0; hops * m];
    x[at * m..at * m + m].copy_from_slice(hop);
    x
}

/// Recordings of so many hops of m samples, each with a reason of its own: silence, the loudest, any sound, quiet ones, a click, and one hop alone.
fn recordings(random: &mut Random, m: usize, hops: usize) -> Vec<Vec<i16>> {
    let count = hops * m;
    let alternating = (0..count).map(|i| if i % 2 == 0 { i16::MIN } else { i16::MAX }).collect();
    let mut click = vec![0; count];
    click[random.below(count)] = random.pick(&[i16::MIN, i16::MAX, 1, -1, 300]);
    let mut within = |count: usize, top: i64| -> Vec<i16> { (0..count).map(|_| random.between(-top, top) as i16).collect() };
    let (any, hop) = (within(count, 32_767), within(m, 32_767));
    let quiet = [1, 10, 100].map(|top| within(count, top));
    let loudest = any.iter().map(|&s| loudest(i128::from(s))).collect();
    let lone = lone_hop(m, hops, random.below(hops), &hop);
    [vec![vec![0; count], alternating, loudest, any, click, lone], quiet.to_vec()].concat()
}

impl Compare {
    /// One call, held to what is due.
    fn due_search(&mut self, wanted: &Wanted, due: impl FnOnce(&Bank, &mut [u32]) -> u32) -> (u32, Vec<u32>) {
        let &Wanted { n, hops, allowed, budget, length, .. } = wanted;
        let output = self.rubbish(length, |z| z as u32);
        // loud, so that a sample beside the recording would be heard
        let mut lent = Lent::new(&wanted.x, i16::MAX);
        let library = |_: &[u8], found: &mut [u32]| library::coarsest_step(n, hops, lent.part(), allowed, budget, found);
        let told = self.call("coarsest_step", wanted, &[], output, library, |bank, _, found| due(bank, found));
        if !lent.kept() {
            mismatch("coarsest_step", wanted, &"wrote to its samples", &told);
        }
        told
    }

    fn coarsest_step(&mut self, wanted: &Wanted) -> u32 {
        let &Wanted { n, hops, allowed, budget, .. } = wanted;
        self.due_search(wanted, |bank, found| bank.coarsest_step(n, hops, &wanted.x, allowed, budget, found)).0
    }

    /// A call that is taken, with the step, the trials and the untried that are due.
    fn due_found(&mut self, n: usize, x: &[i16], allowed: u32, budget: usize, due: [u32; 3]) {
        self.due_search(&Wanted::good(n, x, allowed, budget), |_, found| {
            found.copy_from_slice(&due);
            0
        });
    }

    fn swept(&self, n: usize, x: Vec<i16>) -> Swept {
        let blocks = self.bank.analysed(Route::Direct, n, &x);
        let tried = (1..=LARGEST_TRIED).map(|step| farthest(&self.bank.apart(n, &x, &blocks, step)));
        // there is no step 0
        let farthest = [u32::MAX].into_iter().chain(tried).collect();
        Swept { n, x, farthest }
    }

    /// The trials of a search with this budget. By the step found every sample lies within the distance; where none is untried, by no larger one.
    fn swept_search(&mut self, swept: &Swept, allowed: u32, budget: usize) -> usize {
        let passes = |step: u32| swept.passes(step, allowed);
        let [step, trials, untried] = search(allowed, budget, passes);
        self.due_found(swept.n, &swept.x, allowed, budget, [step, trials, untried]);
        assert!(passes(step) && (untried > 0 || !(step + 1..=LARGEST_TRIED).any(passes)));
        trials as usize
    }

    /// Every distance, with budgets about the trial that ends the search, and with fewer.
    fn every_distance(&mut self, n: usize, x: Vec<i16>) {
        let swept = self.swept(n, x);
        for allowed in 0..=LARGEST_ALLOWED {
            let endless = self.random.pick(&ENDLESS);
            let trials = self.swept_search(&swept, allowed, endless);
            let fewer = self.random.below(trials + 1);
            for budget in [0, 1, 2, fewer, trials.saturating_sub(1), trials] {
                self.swept_search(&swept, allowed, budget);
            }
        }
    }

    /// How far each sample lies from its own by the first step that is tried, where the coefficients are those of this route.
    fn apart_first(&self, route: Route, n: usize, x: &[i16]) -> Vec<u32> {
        self.bank.apart(n, x, &self.bank.analysed(route, n, x), LARGEST_TRIED)
    }

    /// A single trial at the distance of the farthest sample by the step that is tried, which passes, and at one less, which fails. That sample's place,
    /// if it is the only one so far.
    fn first_trial(&mut self, n: usize, x: &[i16]) -> Option<usize> {
        let apart = self.apart_first(Route::Direct, n, x);
        let most = farthest(&apart);
        self.due_found(n, x, most, 1, [1024, 1, 0]);
        if let Some(less) = most.checked_sub(1) {
            self.due_found(n, x, less, 1, [32 * less + 15, 1, 1008 - 32 * less]);
        }
        let mut places = (0..x.len()).filter(|&at| apart[at] == most);
        places.next().filter(|_| places.next().is_none())
    }

    /// Single trials of anything, and of sound until every place of a hop was the one that decides.
    fn first_trials(&mut self, n: usize) {
        for hops in [1, 2, 3].into_iter().flat_map(|hops| [hops; 50]) {
            let x = samples(&mut self.random, hops * n / 2);
            self.first_trial(n, &x);
        }
        let mut decided = vec![false; n / 2];
        while decided.contains(&false) {
            let x = self.rubbish16(n / 2);
            self.first_trial(n, &x).into_iter().for_each(|at| decided[at] = true);
        }
    }

    /// Single trials of sound whose farthest sample would be nearer or farther by the coefficients of another route, a few for each.
    fn direct_trials(&mut self, n: usize) {
        for route in routes_of(n).into_iter().skip(1) {
            let mut met = 0;
            while met < 3 {
                let x = self.rubbish16(n / 2);
                let [direct, other] = [Route::Direct, route].map(|route| farthest(&self.apart_first(route, n, &x)));
                if direct != other {
                    self.first_trial(n, &x);
                    met += 1;
                }
            }
        }
    }

    /// What is due whatever is heard: the sure step without a trial.
    fn sure_steps(&mut self, n: usize) {
        for x in recordings(&mut self.random, n / 2, 2) {
            for (allowed, due) in [(0, [15, 0, 1009]), (1, [47, 0, 977]), (30, [975, 0, 49]), (31, [1007, 0, 17]), (32, [1024, 0, 0])] {
                self.due_found(n, &x, allowed, 0, due);
            }
            for budget in [0, 1, 2].into_iter().chain(ENDLESS) {
                self.due_found(n, &x, 32, budget, [1024, 0, 0]);
            }
        }
    }

    /// Silence passes at once.
    fn silent_searches(&mut self, n: usize) {
        for (hops, allowed) in [1, 2, 6].into_iter().flat_map(|hops| (0..LARGEST_ALLOWED).map(move |allowed| (hops, allowed))) {
            let budget = self.random.pick(&ENDLESS);
            for budget in [1, 2, budget] {
                self.due_found(n, &vec![0; hops * n / 2], allowed, budget, [1024, 1, 0]);
            }
        }
        self.due_found(n, &vec![0; HOPS * n / 2], 0, usize::MAX, [1024, 1, 0]);
    }

    /// With anything, mostly as it should be, and a few trials.
    fn some_searches(&mut self, n: usize) {
        for _ in 0..400 {
            let wanted = self.some_search(n);
            self.coarsest_step(&wanted);
        }
        for (causes, due) in choices(&SEARCH_CAUSES).into_iter().flat_map(|choice| vec![choice; 40]) {
            let mut wanted = self.good_search(n);
            causes.iter().rev().for_each(|&cause| wanted.damage(&mut self.random, cause));
            assert_eq!(self.coarsest_step(&wanted), due);
        }
    }

    fn good_search(&mut self, n: usize) -> Wanted {
        let hops = self.random.pick(&[1, 1, 2, 3, 6]);
        let x = samples(&mut self.random, hops * n / 2);
        let any = self.random.below(33) as u32;
        Wanted::good(n, &x, self.random.pick(&[0, 0, 1, 2, 3, 4, any, any]), self.random.pick(&[0, 1, 2, 3, 9]))
    }

    fn some_search(&mut self, n: usize) -> Wanted {
        let mut wanted = self.good_search(n);
        if self.random.one_in(4) {
            let cause = self.random.below(SEARCH_CAUSES.len());
            wanted.damage(&mut self.random, cause);
        }
        wanted
    }

    /// Each number that refuses by itself, and those beside it that don't.
    fn refused_searches(&mut self, n: usize) {
        let good = Wanted { budget: 1, ..self.good_search(n) };
        for length in (0..10).chain([STORAGE]) {
            let due = if length == 3 { 0 } else { 2 };
            assert_eq!(self.coarsest_step(&Wanted { length, ..good.clone() }), due);
            // before a distance, and behind N
            assert_eq!(self.coarsest_step(&Wanted { length, allowed: 33, ..good.clone() }), if due == 0 { 12 } else { due });
            assert_eq!(self.coarsest_step(&Wanted { length, n: n + 1, ..good.clone() }), 1);
        }
        for count in 0..=2 * n {
            let mut wanted = Wanted { hops: 1, ..good.clone() };
            wanted.x.resize(count, 5);
            assert_eq!(self.coarsest_step(&wanted), if count == n / 2 { 0 } else { 2 });
        }
        for named in (0..300).chain(WRONG_N) {
            self.coarsest_step(&Wanted { n: named, ..good.clone() });
        }
        for allowed in (0..300).chain(NO_DISTANCES) {
            assert_eq!(self.coarsest_step(&Wanted { allowed, ..good.clone() }), if allowed <= 32 { 0 } else { 12 });
        }
    }

    /// Numbers of hops that are none, with the samples that their products wrap round to and with those of one hop.
    fn wrong_searches(&mut self, n: usize) {
        for hops in WRAPPING_HOPS {
            for count in [hops.wrapping_mul(n / 2), n / 2].into_iter().filter(|&count| count < 1000) {
                let wanted = Wanted { hops, ..Wanted::good(n, &vec![0; count], 0, 1) };
                assert_eq!(self.coarsest_step(&wanted), 2);
            }
        }
        let longer = vec![0; (HOPS + 1) * n / 2];
        assert_eq!(self.coarsest_step(&Wanted::good(n, &longer, 0, 0)), 2);
    }

    /// The longest recording, of which one hop is heard, the first or the last.
    fn longest_searches(&mut self, n: usize) {
        let hop = self.rubbish16(n / 2);
        for at in [0, HOPS - 1] {
            for allowed in [0, 1] {
                let x = lone_hop(n / 2, HOPS, at, &hop);
                assert_eq!(self.coarsest_step(&Wanted::good(n, &x, allowed, 2)), 0);
            }
        }
    }

    pub fn coarsest(&mut self, n: usize) {
        // fewer where a block takes longer
        let swept = if n < 108 { 1..=(216 / n).min(6) } else { 2..=2 };
        for hops in swept {
            for x in recordings(&mut self.random, n / 2, hops) {
                self.every_distance(n, x);
            }
        }
        self.first_trials(n);
        self.direct_trials(n);
        self.sure_steps(n);
        self.silent_searches(n);
        self.some_searches(n);
        self.refused_searches(n);
        self.wrong_searches(n);
        self.longest_searches(n);
    }
}
