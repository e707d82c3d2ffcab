//! The banks' questions, asked of the proved library and of a plain implementation written apart from it: the answers are
//! compared on many random piles, and both are timed. `bench/run-banks` builds and runs it.

use std::time::Instant;

#[repr(C)]
#[derive(Clone, Copy)]
struct Outage {
    core: u32,
    from: u32,
    to: u32,
}

unsafe extern "C" {
    fn levels_one_by_one(rows: *const Outage, count: usize, slot: u32, answers: *mut u32, len: usize);
    fn levels_at_once(rows: *const Outage, count: usize, slot: u32, answers: *mut u32, len: usize);
    fn lane_cores(rows: *const Outage, count: usize, slot: u32, answers: *mut u32, len: usize);
    fn next_mark(rows: *const Outage, count: usize, slot: u32) -> u32;
}

const SLOTS: u32 = 4096;
const TOP: u32 = 64;
const WINDOWS: [(u32, u32, u32); 8] = [
    (0, 512, 1),
    (256, 1024, 2),
    (900, 1800, 3),
    (1500, 1600, 8),
    (2000, 2500, 5),
    (2400, 3000, 4),
    (3100, 3900, 2),
    (3500, 4096, 1),
];
const PERIOD: u32 = 16;
const REST: u32 = 4;
const LIMIT: u32 = 40;

/// The plain implementation, straight from the formulas.
mod plain {
    use super::*;

    fn is_out(rows: &[Outage], core: u32, slot: u32) -> bool {
        rows.iter().take(64).any(|o| o.core == core && o.from <= slot && slot < o.to)
    }

    pub fn capacity(rows: &[Outage], level: u32, slot: u32) -> u32 {
        if level > TOP || slot >= SLOTS {
            return 0;
        }
        let usable = (0..level).filter(|&c| !is_out(rows, c, slot)).count() as u32;
        let withheld: u32 = WINDOWS.iter().filter(|w| w.0 <= slot && slot < w.1).map(|w| w.2).sum();
        let left = usable.saturating_sub(withheld);
        if slot % PERIOD >= PERIOD - REST { left.min(LIMIT) } else { left }
    }

    pub fn core(rows: &[Outage], slot: u32, lane: u32) -> u32 {
        if lane >= capacity(rows, TOP, slot) {
            return 64;
        }
        (0..TOP).filter(|&c| !is_out(rows, c, slot)).nth(lane as usize).unwrap_or(64)
    }

    pub fn next_mark(rows: &[Outage], slot: u32) -> u32 {
        let marked = |t: u32| {
            rows.iter().take(64).any(|o| o.from == t || o.to == t)
                || WINDOWS.iter().any(|w| w.0 == t || w.1 == t)
                || t % PERIOD == 0
                || t % PERIOD == PERIOD - REST
        };
        (slot.saturating_add(1)..SLOTS).find(|&t| marked(t)).unwrap_or(SLOTS)
    }
}

/// Marsaglia's xorshift: the same numbers in every run.
struct Random(u64);

impl Random {
    fn below(&mut self, n: u32) -> u32 {
        self.0 ^= self.0 << 13;
        self.0 ^= self.0 >> 7;
        self.0 ^= self.0 << 17;
        ((self.0 >> 32) % u64::from(n)) as u32
    }

    fn rows(&mut self, count: usize) -> Vec<Outage> {
        (0..count)
            .map(|_| {
                let from = self.below(SLOTS + 100);
                let to = from.saturating_add(self.below(1200)).saturating_sub(self.below(200));
                Outage { core: self.below(70), from, to }
            })
            .collect()
    }
}

fn ask(f: unsafe extern "C" fn(*const Outage, usize, u32, *mut u32, usize), rows: &[Outage], slot: u32, answers: &mut [u32]) {
    unsafe { f(rows.as_ptr(), rows.len(), slot, answers.as_mut_ptr(), answers.len()) }
}

/// Compares every answer in some slots of one pile; returns how many were compared.
fn compare(rows: &[Outage], slots: &[u32]) -> usize {
    let mut compared = 0;
    for &slot in slots {
        let mut each = [7u32; 67];
        let mut all = [7u32; 67];
        let mut cores = [7u32; 66];
        ask(levels_one_by_one, rows, slot, &mut each);
        ask(levels_at_once, rows, slot, &mut all);
        ask(lane_cores, rows, slot, &mut cores);
        for level in 0..65 {
            let expected = plain::capacity(rows, level, slot);
            assert_eq!(each[level as usize], expected, "level {level}, slot {slot}");
            assert_eq!(all[level as usize], expected, "level {level}, slot {slot}");
        }
        for lane in 0..64 {
            assert_eq!(cores[lane as usize], plain::core(rows, slot, lane), "lane {lane}, slot {slot}");
        }
        assert!(each[65..] == [7, 7] && all[65..] == [7, 7] && cores[64..] == [7, 7], "written past the answers");
        assert_eq!(unsafe { next_mark(rows.as_ptr(), rows.len(), slot) }, plain::next_mark(rows, slot), "mark after {slot}");
        compared += 2 * 65 + 64 + 1;
    }
    compared
}

/// The mean and the best time of a round, in microseconds, over some rounds; one round is not counted.
fn timed(rounds: u32, mut round: impl FnMut() -> u64) -> (f64, f64) {
    let mut best = f64::MAX;
    let mut total = 0.0;
    let mut sum = round();
    for _ in 0..rounds {
        let start = Instant::now();
        sum = sum.wrapping_add(round());
        let took = start.elapsed().as_secs_f64() * 1e6;
        total += took;
        best = best.min(took);
    }
    std::hint::black_box(sum);
    (total / f64::from(rounds), best)
}

fn report(what: &str, questions: u32, (mean, best): (f64, f64)) {
    let each = mean * 1e3 / f64::from(questions);
    println!("| {what} | {questions} | {mean:.1} | {best:.1} | {each:.1} |");
}

fn main() {
    let mut random = Random(0x9e37_79b9_7f4a_7c15);
    let mut compared = 0;
    for round in 0..200 {
        let rows = random.rows(round % 80);
        let slots: Vec<u32> = (0..40).map(|_| random.below(SLOTS + 4)).chain([0, 4095, 4096, u32::MAX]).collect();
        compared += compare(&rows, &slots);
    }
    println!("{compared} answers of 200 piles compared, all equal");
    println!();

    let rows = random.rows(64);
    let starts: Vec<u32> = (0..128).map(|i| i * 32 + 3).collect();
    let mut answers = [0u32; 65];
    let mut round = |f: unsafe extern "C" fn(*const Outage, usize, u32, *mut u32, usize)| {
        let mut sum = 0u64;
        for &slot in &starts {
            ask(f, &rows, slot, &mut answers);
            sum += u64::from(answers[64]) + u64::from(answers[1]);
        }
        sum
    };
    println!("| what | questions | mean µs | best µs | ns a question |");
    println!("|---|---|---|---|---|");
    report("capacity, level by level", 128 * 65, timed(400, || round(levels_one_by_one)));
    report("capacities, all levels at once", 128 * 65, timed(2000, || round(levels_at_once)));
    report("core, lane by lane", 128 * 64, timed(400, || round(lane_cores)));
    report("mark_after", 128, timed(2000, || {
        starts.iter().map(|&s| u64::from(unsafe { next_mark(rows.as_ptr(), rows.len(), s) })).sum()
    }));
    report("plain implementation, capacity", 128 * 65, timed(20, || {
        starts.iter().flat_map(|&s| (0..65).map(move |k| (k, s))).map(|(k, s)| u64::from(plain::capacity(&rows, k, s))).sum()
    }));
}
