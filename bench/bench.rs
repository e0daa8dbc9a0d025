// The times of the proved code beside those of the same work in Rust, in one run. Nothing is
// asserted of a time; that both sides give the same bits is.
//
// Each line is two closures over the same inputs. They run in turns, a millisecond and more each,
// and of 41 turns the least time counts: what else the machine does only adds to it. That is a run.
// There are RUNS of them, and a line tells the median time of a call on either side, the median of
// the runs' ratios, Rattle's to Rust's, and the least and the most of these. Both sides are called
// through a pointer that the compiler knows nothing of, so neither is fitted to the call.
#[path = "../compare/random.rs"]
mod random;

use random::Random;
use std::cell::RefCell;
use std::hint::black_box;
use std::time::Instant;

// A lent slice is passed as its pointer and its length.
extern "C" {
    fn measured_sqrt(x: f64) -> f64;
    fn measured_plain_sqrt(x: f64) -> f64;
    fn measured_sqrt_all(y: *mut f64, y_len: usize, x: *const f64, x_len: usize) -> bool;
    fn measured_dot(x: *const f64, x_len: usize, y: *const f64, y_len: usize) -> f64;
    fn measured_axpby(
        y: *mut f64,
        y_len: usize,
        a: f64,
        x: *const f64,
        x_len: usize,
        b: f64,
    ) -> bool;
}

// ---- the same in Rust

fn dot(x: &[f64], y: &[f64]) -> f64 {
    std::iter::zip(x, y).fold(0.0, |s, (x, y)| s + x * y)
}

fn axpby(y: &mut [f64], a: f64, x: &[f64], b: f64) {
    std::iter::zip(y, x).for_each(|(y, x)| *y = a * x + b * *y);
}

fn sqrt(x: f64) -> f64 {
    x.sqrt()
}

fn sqrt_all(y: &mut [f64], x: &[f64]) {
    std::iter::zip(y, x).for_each(|(y, x)| *y = x.sqrt());
}

// ---- our root the plain way, as it was before document 02's item 2

fn plain_sqrt(x: f64) -> f64 {
    unsafe { measured_plain_sqrt(x) }
}

fn plain_sqrt_all(y: &mut [f64], x: &[f64]) {
    std::iter::zip(y, x).for_each(|(y, x)| *y = plain_sqrt(*x));
}

// ---- the clock

const ROUNDS: usize = 41;
const ROUND_NS: f64 = 1.5e6;

// A run's two times of a call, in nanoseconds.
struct Times {
    rattle: f64,
    rust: f64,
}

struct Line {
    name: String,
    n: usize,
    runs: Vec<Times>,
}

struct Bench {
    words: Vec<String>,
    lines: RefCell<Vec<Line>>,
}

fn sorted(runs: &[Times], of: impl Fn(&Times) -> f64) -> Vec<f64> {
    let mut all: Vec<f64> = runs.iter().map(of).collect();
    all.sort_by(f64::total_cmp);
    all
}

impl Line {
    fn tell(&self) {
        let (rattle, rust) = (
            sorted(&self.runs, |t| t.rattle),
            sorted(&self.runs, |t| t.rust),
        );
        let ratio = sorted(&self.runs, |t| t.rattle / t.rust);
        let (middle, last) = (ratio.len() / 2, ratio.len() - 1);
        println!(
            "{:33} {:5} {:12.2} {:12.2} {:8.3} {:8.3} {:8.3}",
            self.name, self.n, rattle[middle], rust[middle], ratio[middle], ratio[0], ratio[last]
        );
    }
}

fn time<A>(times: u64, f: &mut impl FnMut() -> A) -> f64 {
    let start = Instant::now();
    for _ in 0..times {
        black_box(f());
    }
    start.elapsed().as_nanos() as f64
}

impl Bench {
    fn wanted(&self, name: &str) -> bool {
        self.words.is_empty() || self.words.iter().any(|word| name.contains(word.as_str()))
    }

    // One run of one line. `parts` is how many calls a closure makes.
    fn pair<A, B>(
        &self,
        name: &str,
        n: usize,
        parts: usize,
        mut rattle: impl FnMut() -> A,
        mut rust: impl FnMut() -> B,
    ) {
        if !self.wanted(name) {
            return;
        }
        let mut times = 1;
        while time(times, &mut rattle).max(time(times, &mut rust)) < ROUND_NS {
            times *= 2;
        }
        let (mut a, mut b) = (f64::INFINITY, f64::INFINITY);
        for _ in 0..ROUNDS {
            a = a.min(time(times, &mut rattle));
            b = b.min(time(times, &mut rust));
        }
        let each = times as f64 * parts as f64;
        let times = Times {
            rattle: a / each,
            rust: b / each,
        };
        let mut lines = self.lines.borrow_mut();
        match lines
            .iter_mut()
            .find(|line| line.name == name && line.n == n)
        {
            Some(line) => line.runs.push(times),
            None => lines.push(Line {
                name: name.to_string(),
                n,
                runs: vec![times],
            }),
        }
    }

    // A call that writes: both write the same memory, from the same contents once to be compared.
    fn writes<A>(
        &self,
        name: &str,
        n: usize,
        start: &[f64],
        rattle: impl Fn(Lent) -> bool,
        rust: impl Fn(Lent) -> A,
    ) {
        let (mut y, mut z) = (start.to_vec(), start.to_vec());
        assert!(rattle(Lent::new(&mut y)));
        rust(Lent::new(&mut z));
        assert!(same(&y, &z));
        let lent = Lent::new(&mut y);
        self.pair(
            name,
            n,
            1,
            || rattle(black_box(lent)),
            || rust(black_box(lent)),
        );
    }
}

// A buffer that both sides write in turns.
#[derive(Clone, Copy)]
struct Lent {
    at: *mut f64,
    len: usize,
}

impl Lent {
    fn new(y: &mut [f64]) -> Lent {
        Lent {
            at: y.as_mut_ptr(),
            len: y.len(),
        }
    }

    fn one(y: &mut f64) -> Lent {
        Lent::new(std::slice::from_mut(y))
    }

    fn slice<'a>(self) -> &'a mut [f64] {
        unsafe { std::slice::from_raw_parts_mut(self.at, self.len) }
    }
}

// ---- inputs

// n numbers from -1 up to 1
fn vector(random: &mut Random, n: usize) -> Vec<f64> {
    (0..n)
        .map(|_| (random.bits() >> 11) as f64 / (1u64 << 52) as f64 - 1.0)
        .collect()
}

// bit for bit, all NaNs as one
fn same(x: &[f64], y: &[f64]) -> bool {
    x.len() == y.len()
        && std::iter::zip(x, y).all(|(x, y)| x.to_bits() == y.to_bits() || x.is_nan() && y.is_nan())
}

// ---- the cones, over the machine's root and over ours

mod cones {
    use clarabel as files;
    const OVER: &str = "";
    const ROOTS_ONLY: bool = false;
    include!("cones.rs");
}

mod rooted {
    use clarabel_rooted as files;
    const OVER: &str = ", our root";
    const ROOTS_ONLY: bool = true;
    include!("cones.rs");
}

// ---- a cone of a list, beside the cone by itself

mod lists;
mod wholes;

// ---- the lines

fn helpers(bench: &Bench, random: &mut Random) {
    let (f, g) = black_box((
        measured_dot as unsafe extern "C" fn(_, _, _, _) -> _,
        dot as fn(&[f64], &[f64]) -> _,
    ));
    for n in [8, 64, 4096] {
        let (x, y) = (vector(random, n), vector(random, n));
        let rattle = || unsafe { f(black_box(x.as_ptr()), n, black_box(y.as_ptr()), n) };
        let rust = || g(black_box(&x), black_box(&y));
        assert!(same(&[rattle()], &[rust()]));
        bench.pair("dot", n, 1, rattle, rust);
    }
    let (f, g) = black_box((
        measured_axpby as unsafe extern "C" fn(_, _, _, _, _, _) -> _,
        axpby as fn(&mut [f64], _, &[f64], _),
    ));
    let (a, b) = black_box((0.25, 0.75));
    for n in [8, 64, 4096] {
        let (x, y) = (vector(random, n), vector(random, n));
        let rattle = |y: Lent| unsafe { f(y.at, n, a, black_box(x.as_ptr()), n, b) };
        let rust = |y: Lent| g(y.slice(), a, black_box(&x), b);
        bench.writes("axpby", n, &y, rattle, rust);
    }
}

fn roots(bench: &Bench, random: &mut Random) {
    let normal: Vec<f64> = (0..4096)
        .map(|_| f64::from_bits(random.bits() % 0x7fe0_0000_0000_0000 + 0x10_0000_0000_0000))
        .collect();
    let subnormal: Vec<f64> = (0..4096)
        .map(|k| f64::from_bits(random.bits() >> (12 + k % 52) | 1))
        .collect();
    let (one, all) = black_box((
        measured_sqrt as unsafe extern "C" fn(_) -> _,
        measured_sqrt_all as unsafe extern "C" fn(_, _, _, _) -> _,
    ));
    let sides = black_box([
        (
            "",
            sqrt as fn(f64) -> f64,
            sqrt_all as fn(&mut [f64], &[f64]),
        ),
        (", plain beside", plain_sqrt, plain_sqrt_all),
    ]);
    for (beside, g, g_all) in sides {
        for (of, values) in [("sqrt", &normal), ("sqrt of subnormals", &subnormal)] {
            let rattle = || {
                values
                    .iter()
                    .map(|x| unsafe { one(*x) })
                    .fold(0.0, f64::max)
            };
            let rust = || values.iter().map(|x| g(*x)).fold(0.0, f64::max);
            assert!(same(&[rattle()], &[rust()]));
            bench.pair(&format!("{of}{beside}"), 1, values.len(), rattle, rust);
        }
        for (of, values, n) in [
            ("sqrt entry by entry", &normal, 8),
            ("sqrt entry by entry", &normal, 64),
            ("sqrt entry by entry", &normal, 4096),
            ("subnormal entries", &subnormal, 4096),
        ] {
            let x = &values[..n];
            let rattle = |y: Lent| unsafe { all(y.at, n, black_box(x.as_ptr()), n) };
            let rust = |y: Lent| g_all(y.slice(), black_box(x));
            bench.writes(&format!("{of}{beside}"), n, &vec![0.0; n], rattle, rust);
        }
    }
}

fn main() {
    let runs = std::env::var("RUNS").map_or(5, |runs| runs.parse().expect("RUNS is a number"));
    let bench = Bench {
        words: std::env::args().skip(1).collect(),
        lines: RefCell::new(vec![]),
    };
    for _ in 0..runs {
        let mut random = Random(1);
        helpers(&bench, &mut random);
        roots(&bench, &mut random);
        cones::soc(&bench, &mut Random(2));
        rooted::soc(&bench, &mut Random(2));
        cones::nn(&bench, &mut Random(3));
        rooted::nn(&bench, &mut Random(3));
        lists::lists(&bench, &mut Random(4));
        wholes::wholes(&bench, &mut Random(5));
    }
    println!(
        "{:33} {:>5} {:>12} {:>12} {:>8} {:>8} {:>8}",
        "name", "n", "rattle_ns", "rust_ns", "ratio", "least", "most"
    );
    bench.lines.borrow().iter().for_each(Line::tell);
}
