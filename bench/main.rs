//! Measures the proved code against plain Rust for the same calls on the same input. Both sides run in turn, many times;
//! each side's time is the least that was seen.

mod card;
mod engine;
mod sheet;

use engine::{Length, Pair, Point, Table};
use std::hint::black_box;
use std::time::Instant;

#[repr(C)]
struct Given {
    shares: [i64; 48],
    rows: [[i64; 48]; 12],
}

// A slice crosses as a pointer and then a length.
unsafe extern "C" {
    fn valetwren_plus_scaled(
        us: *const Pair, us_len: usize,
        ks: *const i64, ks_len: usize,
        vs: *const Pair, vs_len: usize,
        out: *mut Pair, out_len: usize,
    ) -> bool;
    fn valetwren_sum_scaled(ks: *const i64, ks_len: usize, vs: *const Pair, vs_len: usize) -> Pair;
    fn valetwren_eliminate(n: usize, m: usize, given: *const Given, out: *mut [[i64; 24]; 12]) -> u8;
    fn valetwren_last_number(n: usize, m: usize, given: *const Given) -> i64;
    fn valetwren_pull_lengths(
        count: usize,
        coefficients: *const i64, coefficients_len: usize,
        codes: *const i64, codes_len: usize,
        wishes: *const i64, wishes_len: usize,
        answers: *mut i64, answers_len: usize,
        out: *mut i64, out_len: usize,
    ) -> u8;
    fn valetwren_pull_points(
        count: usize,
        coefficients: *const i64, coefficients_len: usize,
        codes: *const i64, codes_len: usize,
        wishes: *const i64, wishes_len: usize,
        answers: *mut i64, answers_len: usize,
        out: *mut i64, out_len: usize,
    ) -> u8;
    fn valetwren_run_card(card: *const u8, card_len: usize, out: *mut u8, out_len: usize) -> usize;
}

/// Numbers that look random and are the same in every run.
struct Random(u64);

impl Random {
    fn next(&mut self) -> u64 {
        self.0 ^= self.0 << 13;
        self.0 ^= self.0 >> 7;
        self.0 ^= self.0 << 17;
        self.0
    }

    fn below(&mut self, n: u64) -> u64 {
        (self.next() >> 11) % n
    }

    fn within(&mut self, most: i64) -> i64 {
        self.below(2 * most as u64 + 1) as i64 - most
    }
}

/// The least time of each side in nanoseconds, over `turns` turns.
fn least(turns: usize, mut proved: impl FnMut(), mut plain: impl FnMut()) -> (f64, f64) {
    let mut best = (f64::MAX, f64::MAX);
    for turn in 0..turns {
        let mut time = |first: bool| {
            let start = Instant::now();
            if first { proved() } else { plain() }
            let t = start.elapsed().as_nanos() as f64;
            let side = if first { &mut best.0 } else { &mut best.1 };
            *side = side.min(t);
        };
        time(turn % 2 == 0);
        time(turn % 2 == 1);
    }
    best
}

/// One line: the case, both times for one call, their ratio, and the most that it should be.
fn report(case: &str, calls: usize, (proved, plain): (f64, f64), target: f64) {
    let ratio = proved / plain;
    let n = calls as f64;
    let mark = if ratio <= target { "within" } else { "BEYOND" };
    println!("{case:<44} {:>10.1} ns {:>10.1} ns   {ratio:>5.2}  {mark} {target}", proved / n, plain / n);
}

fn combining(name: &str, random: &mut Random, factor: i64, value: i64, begun: i64) {
    const N: usize = 480;
    const CALLS: usize = 10;
    let us: Vec<Pair> = (0..N).map(|_| Pair { x: random.within(begun), y: random.within(begun) }).collect();
    let ks: Vec<i64> = (0..N).map(|_| random.within(factor)).collect();
    let vs: Vec<Pair> = (0..N).map(|_| Pair { x: random.within(value), y: random.within(value) }).collect();
    let mut ours = vec![Pair { x: 0, y: 0 }; N];
    let mut theirs = ours.clone();
    let call = |out: &mut [Pair]| unsafe {
        valetwren_plus_scaled(us.as_ptr(), N, ks.as_ptr(), N, vs.as_ptr(), N, out.as_mut_ptr(), N)
    };
    assert_eq!(call(&mut ours), engine::plus_scaled(&us, &ks, &vs, &mut theirs));
    assert_eq!(ours, theirs);
    let times = least(
        4000,
        || for _ in 0..CALLS { black_box(call(black_box(&mut ours))); },
        || for _ in 0..CALLS {
            black_box(engine::plus_scaled(black_box(&us), black_box(&ks), black_box(&vs), black_box(&mut theirs)));
        },
    );
    report(&format!("u + k × v on points, {name}"), N * CALLS, times, 1.5);
    let sum = || unsafe { valetwren_sum_scaled(black_box(&ks).as_ptr(), N, vs.as_ptr(), N) };
    assert_eq!(sum(), engine::sum_scaled(&ks, &vs));
    let times = least(
        4000,
        || for _ in 0..CALLS { black_box(sum()); },
        || for _ in 0..CALLS { black_box(engine::sum_scaled(black_box(&ks), black_box(&vs))); },
    );
    report(&format!("the sum of k × v on points, {name}"), N * CALLS, times, 1.5);
}

/// A relation over 24 loose parameters with `terms` small coefficients.
fn sparse(random: &mut Random, terms: usize, most: i64) -> [i64; 48] {
    let mut row = [0; 48];
    for _ in 0..terms {
        row[random.below(24) as usize] = random.within(most);
    }
    row[random.below(24) as usize] = 1;
    row
}

fn eliminating(random: &mut Random, m: usize, terms: usize, most: i64) {
    let mut shares = [0; 48];
    shares[..24].fill(1);
    let mut inputs = Vec::new();
    while inputs.len() < 16 {
        let mut rows = [[0; 48]; 12];
        for row in rows.iter_mut().take(m) {
            *row = sparse(random, terms, most);
        }
        if engine::eliminate(24, m, &shares, &rows).is_ok() {
            inputs.push(Given { shares, rows });
        }
    }
    let mut ours = [[0; 24]; 12];
    for given in &inputs {
        assert_eq!(unsafe { valetwren_eliminate(24, m, given, &mut ours) }, 0);
        assert_eq!(Ok(Table { rows: ours }), engine::eliminate(24, m, &given.shares, &given.rows));
    }
    let times = least(
        3000,
        || {
            for given in black_box(&inputs) {
                black_box(unsafe { valetwren_last_number(24, m, given) });
            }
        },
        || {
            for given in black_box(&inputs) {
                black_box(engine::last_number(24, m, &given.shares, &given.rows));
            }
        },
    );
    report(&format!("elimination, {m} relations, {terms} terms to {most}"), inputs.len(), times, 1.1);
}

type Pulls = unsafe extern "C" fn(
    usize, *const i64, usize, *const i64, usize, *const i64, usize, *mut i64, usize, *mut i64, usize,
) -> u8;

type PlainPulls = fn(usize, &[i64], &[i64], &[i64], &mut [i64], &mut [i64]) -> Result<(), u8>;

/// Pulls on a sheet of 30 parameters, 24 of them loose, whose relations make chains of equal ones.
fn pulling(random: &mut Random, name: &str, size: usize, m: usize, proved: Pulls, plain: PlainPulls) {
    const TIMES: usize = 256;
    let step = 48 * size;
    let mut codes = vec![-1; 30];
    for (s, code) in codes.iter_mut().enumerate() {
        *code = if s < 24 { [1, 2, 12][s % 3] } else if s < 28 { 0 } else { -1 };
    }
    let mut coefficients = vec![0; 48 * m];
    for (i, row) in coefficients.chunks_exact_mut(48).enumerate() {
        row[2 * i] = 1;
        row[2 * i + 1] = -1;
        row[24 + i % 6] = 1;
    }
    let wishes: Vec<i64> = (0..TIMES * step).map(|_| random.within(12) * 100).collect();
    let mut ours = (vec![0; TIMES], vec![0; TIMES * step]);
    let mut theirs = ours.clone();
    let run = |to: &mut (Vec<i64>, Vec<i64>)| unsafe {
        proved(
            30,
            coefficients.as_ptr(), coefficients.len(),
            codes.as_ptr(), codes.len(),
            wishes.as_ptr(), wishes.len(),
            to.0.as_mut_ptr(), to.0.len(),
            to.1.as_mut_ptr(), to.1.len(),
        )
    };
    let run_plain = |to: &mut (Vec<i64>, Vec<i64>)| plain(30, &coefficients, &codes, &wishes, &mut to.0, &mut to.1);
    assert_eq!(run(&mut ours), 0);
    assert_eq!(run_plain(&mut theirs), Ok(()));
    assert_eq!(ours, theirs);
    let accepted = ours.0.iter().filter(|d| **d > 0).count();
    assert_eq!(accepted, TIMES, "{:?}", ours.0);
    let times = least(
        1000,
        || { black_box(run(black_box(&mut ours))); },
        || { let _ = black_box(run_plain(black_box(&mut theirs))); },
    );
    report(&format!("pull, {name}, {m} relations"), TIMES, times, 1.2);
}

/// 30 lengths and 537 lines: relations, and then grips with pulls of wide lines.
fn wide_card(random: &mut Random) -> Vec<u8> {
    let mut card = String::from("length");
    for s in 0..30 {
        card += &format!(" p{s}");
    }
    card += "\n";
    let row = |cell: &mut dyn FnMut(usize) -> String| (0..30).map(|s| format!(" {}", cell(s))).collect::<String>();
    for i in 0..8 {
        let cells = row(&mut |s| (if s == i { 1 } else if s == i + 1 { -1 } else { 0 }).to_string());
        card += &format!("bind{cells} 0\n");
    }
    for _ in 0..66 {
        card += &format!("grip{}\n", row(&mut |s| if s > 26 { "*" } else if s > 23 { "." } else { "~" }.to_string()));
        for _ in 0..6 {
            card += &format!("pull{}\n", row(&mut |_| random.within(1_600).to_string()));
        }
        card += "keep\n";
    }
    card.into_bytes()
}

/// 3 lengths and about 5,400 lines.
fn narrow_card(random: &mut Random) -> Vec<u8> {
    let mut card = String::from("length a b c\n");
    while card.len() < 64_900 {
        card += "bind 1 -2 1 0\ngrip * 1 1\n";
        for _ in 0..8 {
            card += &format!("pull {} {} {}\n", random.within(9), random.within(9), random.within(9));
        }
        card += if random.below(2) == 0 { "keep\n" } else { "drop\n" };
        card += "unbind 0\n";
    }
    card.into_bytes()
}

fn cards(name: &str, bytes: Vec<u8>) {
    let lines = bytes.iter().filter(|b| **b == b'\n').count();
    let mut out = vec![0; 1 << 21];
    let mut run = || unsafe { valetwren_run_card(bytes.as_ptr(), bytes.len(), out.as_mut_ptr(), out.len()) };
    let n = run();
    let expected = card::run_card(&bytes);
    assert!(n == expected.len() && out[..n] == expected, "the answers differ");
    let accepted = expected.split(|b| *b == b'\n').filter(|answer| answer.starts_with(b"ok")).count();
    let mut run = || unsafe { valetwren_run_card(bytes.as_ptr(), bytes.len(), out.as_mut_ptr(), out.len()) };
    let times = least(500, || { black_box(run()); }, || { black_box(card::run_card(black_box(&bytes))); });
    // no less than 0.7 times the lines in a second
    report(&format!("card, {name}, {lines} lines, {accepted} accepted"), lines, times, 1.43);
}

fn main() {
    println!("{:<44} {:>13} {:>13}   ratio", "case, time of one call or line", "proved", "plain Rust");
    let mut random = Random(0x9e37_79b9_7f4a_7c15);
    combining("small", &mut random, 1_000, 47_560, 100_000_000);
    combining("of 31 bits", &mut random, 2_147_483_647, 2_147_483_647, 1 << 61);
    combining("near the edge", &mut random, 1 << 33, 1 << 30, i64::MAX / 2);
    for (m, terms, most) in [(4, 24, 2), (4, 4, 9), (8, 4, 2), (8, 2, 3), (12, 3, 1), (12, 2, 2)] {
        eliminating(&mut random, m, terms, most);
    }
    for m in [4, 8, 12] {
        pulling(&mut random, "lengths", 1, m, valetwren_pull_lengths, sheet::pull_all::<Length>);
        pulling(&mut random, "points", 2, m, valetwren_pull_points, sheet::pull_all::<Point>);
    }
    cards("30 lengths", wide_card(&mut random));
    cards("3 lengths", narrow_card(&mut random));
}
