// The proved root, and the plain way that stands behind it, beside Rust's `f64::sqrt`, which is the
// machine's, on some hundred million doubles: bit for bit, all NaNs counted as one. Of each group it
// tells besides how often the guess at a root is wrong, so that its digits are found one by one.
#[path = "../crates/guess/src/lib.rt"]
mod guess;
mod random;

use random::Random;

extern "C" {
    fn measured_sqrt(x: f64) -> f64;
    fn measured_plain_sqrt(x: f64) -> f64;
}

fn same(x: f64, y: f64) -> bool {
    x.is_nan() && y.is_nan() || x.to_bits() == y.to_bits()
}

// Whether the guess is the nearest root, as `is_nearest` of crate root has it.
fn guessed(b: u64) -> bool {
    let shift = if b >> 52 == 0 {
        b.leading_zeros() as u64 - 11
    } else {
        0
    };
    let bits = (b << shift) + (shift % 2 << 52);
    let a = (bits & DIGITS | 1 << 52) << ((bits >> 52) + 1) % 2;
    let c = guess::root(bits).to_bits() & DIGITS | 1 << 52;
    let over = (c as i128) * (c as i128 + 1) - ((a as i128) << 52);
    (0..2 * c as i128).contains(&over)
}

#[derive(Default)]
struct Tally {
    passed: u64,
    failed: u64,
    wrong: u64,
}

impl Tally {
    fn bits(&mut self, b: u64) {
        let x = f64::from_bits(b);
        if b > 0 && b < 0x7ff << 52 && !guessed(b) {
            self.wrong += 1;
        }
        let (ours, plain) = unsafe { (measured_sqrt(x), measured_plain_sqrt(x)) };
        let theirs = x.sqrt();
        if same(ours, theirs) && same(plain, theirs) {
            self.passed += 1;
        } else {
            self.failed += 1;
            if self.failed <= 20 {
                println!(
                    "{b:#018x}: {:#018x}, the plain way {:#018x}, and Rust has {:#018x}",
                    ours.to_bits(),
                    plain.to_bits(),
                    theirs.to_bits()
                );
            }
        }
    }

    // a pattern and its two neighbours
    fn around(&mut self, b: u64) {
        for c in [b.wrapping_sub(1), b, b.wrapping_add(1)] {
            self.bits(c);
        }
    }

    fn all(&self) -> u64 {
        self.passed + self.failed
    }
}

const SIGN: u64 = 1 << 63;
const DIGITS: u64 = (1 << 52) - 1;

// The double of the 53 leading digits of n, cut: those around it are the nearest to n there are.
fn cut(n: u128, power: i32) -> Option<u64> {
    let drop = 128 - n.leading_zeros() as i32 - 53;
    let digits = (if drop < 0 { n << -drop } else { n >> drop }) as u64;
    let field = power + drop + 1075;
    (1..2047)
        .contains(&field)
        .then(|| (field as u64) << 52 | digits & DIGITS)
}

fn main() {
    let mut random = Random(2);
    let mut tally = Tally::default();
    println!("{:56} {:>9} {:>6}", "", "doubles", "wrong");
    let mut group = |name: &str, f: &mut dyn FnMut(&mut Tally)| {
        let (all, wrong) = (tally.all(), tally.wrong);
        f(&mut tally);
        println!(
            "{name:56} {:9} {:6}",
            tally.all() - all,
            tally.wrong - wrong
        );
    };

    group(
        "zeros, infinities, NaNs, the ends of each range",
        &mut |t| {
            for b in [
                0,
                1,
                DIGITS,
                1 << 52,
                0x3ff << 52,
                0x7fe << 52,
                0x7ff << 52,
                0x7ff8 << 48,
            ] {
                t.around(b);
                t.around(b ^ SIGN);
            }
        },
    );
    group("every exponent: the ends and 15,000 others", &mut |t| {
        for field in 0..2048u64 {
            for digits in [0, 1, 2, DIGITS / 2, DIGITS - 1, DIGITS] {
                t.bits(field << 52 | digits);
            }
            for _ in 0..15_000 {
                t.bits(field << 52 | random.bits() & DIGITS);
            }
        }
    });
    let mut random = Random(3);
    group("subnormals, by their leading zeros", &mut |t| {
        for size in 0..52 {
            t.around(1 << size);
            for _ in 0..100_000 {
                t.bits(1 << size | random.bits() & ((1 << size) - 1));
            }
        }
    });
    let mut random = Random(4);
    group(
        "whole numbers' squares, exact, and their neighbours",
        &mut |t| {
            for _ in 0..5_000_000 {
                let c = random.bits() >> (38 + random.bits() % 20) | 1;
                t.around(
                    ((c * c) as f64 * f64::powi(2.0, (random.bits() % 500) as i32 * 2 - 500))
                        .to_bits(),
                );
            }
        },
    );
    group("squares of doubles, and their neighbours", &mut |t| {
        for _ in 0..5_000_000 {
            let c = (random.bits() >> 11 | 1 << 52) as u128;
            if let Some(b) = cut(c * c, (random.bits() % 1900) as i32 - 1050) {
                t.around(b);
            }
        }
    });
    group(
        "squares of the middles between doubles, and neighbours",
        &mut |t| {
            for _ in 0..5_000_000 {
                let c = (random.bits() >> 10 | 1 << 53 | 1) as u128;
                if let Some(b) = cut(c * c, (random.bits() % 1900) as i32 - 1050) {
                    t.around(b);
                }
            }
        },
    );
    group("any pattern", &mut |t| {
        for _ in 0..20_000_000 {
            t.bits(random.bits());
        }
    });

    println!("{} guesses wrong", tally.wrong);
    println!("{} passed, {} failed", tally.passed, tally.failed);
    std::process::exit((tally.failed > 0) as i32);
}
