// The calls of both cones: the exports of akmuzrel beside the crate's three files over the stand-in,
// `files`. bench.rs takes this file in twice, once over the machine's root and once over ours; then
// only the calls with roots are timed. Both sides work on the same memory: what the Rust cone stores
// is what the export is lent.
use super::{same, vector, Bench, Lent};
use crate::random::Random;
use files::algebra::MatrixShape;
use files::cones::*;
use std::hint::black_box;

const SIZES: [usize; 4] = [3, 8, 64, 4096];
const LIMIT: f64 = 1.0;
const SETTINGS: CoreSettings<f64> = CoreSettings(std::marker::PhantomData);

// A lent slice is a pointer and a length; a lent number is a pointer.
type P = *mut f64;
type N = usize;

// The exports: `at::NAME()` is a pointer to the function that the compiler knows nothing of.
macro_rules! exports {
    ($($name:ident($($t:ty),*);)*) => {
        extern "C" {
            $(fn $name($(_: $t),*) -> u8;)*
        }
        mod at {
            use super::*;
            $(pub fn $name() -> unsafe extern "C" fn($($t),*) -> u8 {
                black_box(super::$name)
            })*
        }
    };
}

exports! {
    akm_soc_mul_w(P, N, P, N, f64, f64, P, N, P);
    akm_soc_mul_winv(P, N, P, N, f64, f64, P, N, P);
    akm_soc_mul_hs(P, N, P, N, P, N, P);
    akm_soc_circ_op(P, N, P, N, P, N);
    akm_soc_inv_circ_op(P, N, P, N, P, N);
    akm_soc_get_hs(P, N, P, N, P, P);
    akm_soc_ds_from_dz_offset(P, N, P, N, P, N, P, N, P, N, P);
    akm_soc_margins(P, N, P, P);
    akm_soc_step_length(P, N, P, N, P, N, P, N, f64, P, P);
    akm_soc_combined_ds_shift(P, N, P, N, P, N, f64, P, N, P);
    akm_soc_update_scaling(P, N, P, N, P, N, P, N, P, N, P, N, P, P, *mut u8);
    akm_nn_mul_w(P, N, P, N, f64, f64, P, N);
    akm_nn_mul_winv(P, N, P, N, f64, f64, P, N);
    akm_nn_mul_hs(P, N, P, N, P, N);
    akm_nn_circ_op(P, N, P, N, P, N);
    akm_nn_inv_circ_op(P, N, P, N, P, N);
    akm_nn_get_hs(P, N, P, N);
    akm_nn_ds_from_dz_offset(P, N, P, N, P, N);
    akm_nn_margins(P, N, P, P);
    akm_nn_step_length(P, N, P, N, P, N, P, N, f64, P, P);
    akm_nn_combined_ds_shift(P, N, P, N, P, N, f64, P, N);
    akm_nn_update_scaling(P, N, P, N, P, N, P, N, *mut u8);
}

type Soc = SecondOrderCone<f64>;
type Nn = NonnegativeCone<f64>;
type In<'a> = &'a [f64];
type Out<'a> = &'a mut [f64];

// A call of the files, by a pointer to a function that the compiler knows nothing of.
macro_rules! rust {
    ($cone:ty, |$c:ident $(, $x:ident: $t:ty)*| $body:expr) => {
        black_box((|$c, $($x),*| $body) as fn(&mut $cone $(, $t)*) -> _)
    };
}

fn kept(x: Vec<f64>) -> Lent {
    Lent::new(x.leak())
}

// What is timed of one cone; all that its calls may write is `seen`.
struct Calls<'a> {
    bench: &'a Bench,
    n: usize,
    seen: Vec<Lent>,
}

impl Calls<'_> {
    fn contents(&self) -> Vec<Vec<f64>> {
        self.seen.iter().map(|lent| lent.slice().to_vec()).collect()
    }

    fn restore(&self, contents: &[Vec<f64>]) {
        for (lent, old) in self.seen.iter().zip(contents) {
            lent.slice().copy_from_slice(old);
        }
    }

    // Both sides from the same contents: do they leave the same?
    fn compare(&self, name: &str, rattle: &impl Fn() -> u8, rust: &impl Fn()) {
        let old = self.contents();
        assert_eq!(rattle(), 0, "{name}: refused");
        let found = self.contents();
        self.restore(&old);
        rust();
        let all = std::iter::zip(&found, &self.contents()).all(|(x, y)| same(x, y));
        assert!(all, "{name} at {}: not the same", self.n);
        self.restore(&old);
    }

    // A call without roots.
    fn call(&self, name: &str, rattle: impl Fn() -> u8, rust: impl Fn()) {
        self.settled(name, || (), rattle, rust);
    }

    // The same, where `settle` comes before it is timed: made again and again, the call would else
    // not stay among ordinary numbers.
    fn settled(&self, name: &str, settle: impl Fn(), rattle: impl Fn() -> u8, rust: impl Fn()) {
        if ROOTS_ONLY || !self.bench.wanted(name) {
            return;
        }
        self.compare(name, &rattle, &rust);
        let old = self.contents();
        settle();
        self.bench.pair(name, self.n, 1, rattle, rust);
        self.restore(&old);
    }

    // A call with roots.
    fn rooted(&self, name: &str, rattle: impl Fn() -> u8, rust: impl Fn()) {
        let name = format!("{name}{OVER}");
        if self.bench.wanted(&name) {
            self.compare(&name, &rattle, &rust);
            self.bench.pair(&name, self.n, 1, rattle, rust);
        }
    }
}

// inside the second-order cone
fn inside(random: &mut Random, n: usize) -> Vec<f64> {
    let mut x = vector(random, n);
    x[0] = 0.5 + 1.5 * x[1..].iter().map(|x| x * x).sum::<f64>().sqrt();
    x
}

// above zero
fn above(random: &mut Random, n: usize) -> Vec<f64> {
    vector(random, n).iter().map(|x| x + 1.125).collect()
}

// what a scaling told, beside what it stored
fn tell(pair: Lent, told: u8) {
    pair.slice()[0] = told as f64;
}

fn tell_both(pair: Lent, (x, y): (f64, f64)) {
    pair.slice().copy_from_slice(&[x, y]);
}

pub fn soc(bench: &Bench, random: &mut Random) {
    for n in SIZES {
        let [s, z] = [0, 1].map(|_| kept(inside(random, n)));
        let [ds, dz, y, step_z, step_s] = [0, 1, 2, 3, 4].map(|_| kept(vector(random, n)));
        let hs = kept(vec![0.0; if n > 4 { n } else { n * (n + 1) / 2 }]);
        let pair = kept(vec![0.0; 2]);
        let (p, q) = (pair.at, unsafe { pair.at.add(1) });
        let mut told = 2;
        let told: *mut u8 = &mut told;

        let c = Box::leak(Box::new(Soc::new(n)));
        c.update_scaling(s.slice(), z.slice(), 1.0, ScalingStrategy::PrimalDual);
        let (w, l, eta) = (
            Lent::new(&mut c.w),
            Lent::new(&mut c.λ),
            Lent::one(&mut c.η),
        );
        let (u, v, d) = match &mut c.sparse_data {
            Some(more) => (
                Lent::new(&mut more.u),
                Lent::new(&mut more.v),
                Lent::one(&mut more.d),
            ),
            None => (kept(vec![0.0; n]), kept(vec![0.0; n]), kept(vec![0.0])),
        };
        let c: *mut Soc = c;
        let cone = || unsafe { &mut *c };
        let seen = vec![y, step_z, step_s, hs, pair, w, l, u, v, eta, d];
        let calls = Calls { bench, n, seen };

        let f = at::akm_soc_mul_w();
        let g = rust!(Soc, |c, y: Out, x: In, a: f64, b: f64| c.mul_W(
            MatrixShape::N,
            y,
            x,
            a,
            b
        ));
        calls.call(
            "soc mul_w",
            || unsafe { f(y.at, n, z.at, n, 0.75, 0.5, w.at, n, eta.at) },
            || g(cone(), y.slice(), z.slice(), 0.75, 0.5),
        );

        let f = at::akm_soc_mul_winv();
        let g = rust!(Soc, |c, y: Out, x: In, a: f64, b: f64| c.mul_Winv(
            MatrixShape::N,
            y,
            x,
            a,
            b
        ));
        calls.call(
            "soc mul_winv",
            || unsafe { f(y.at, n, z.at, n, 0.75, 0.5, w.at, n, eta.at) },
            || g(cone(), y.slice(), z.slice(), 0.75, 0.5),
        );

        let f = at::akm_soc_mul_hs();
        let g = rust!(Soc, |c, y: Out, x: In| c.mul_Hs(y, x, &mut []));
        calls.call(
            "soc mul_hs",
            || unsafe { f(y.at, n, z.at, n, w.at, n, eta.at) },
            || g(cone(), y.slice(), z.slice()),
        );

        let f = at::akm_soc_circ_op();
        let g = rust!(Soc, |c, x: Out, y: In, z: In| c.circ_op(x, y, z));
        calls.call(
            "soc circ_op",
            || unsafe { f(y.at, n, ds.at, n, z.at, n) },
            || g(cone(), y.slice(), ds.slice(), z.slice()),
        );

        let f = at::akm_soc_inv_circ_op();
        let g = rust!(Soc, |c, x: Out, y: In, z: In| c.inv_circ_op(x, y, z));
        calls.rooted(
            "soc inv_circ_op",
            || unsafe { f(y.at, n, z.at, n, ds.at, n) },
            || g(cone(), y.slice(), z.slice(), ds.slice()),
        );

        let f = at::akm_soc_get_hs();
        let g = rust!(Soc, |c, hs: Out| c.get_Hs(hs));
        calls.call(
            "soc get_hs",
            || unsafe { f(hs.at, hs.len, w.at, n, eta.at, d.at) },
            || g(cone(), hs.slice()),
        );

        let f = at::akm_soc_ds_from_dz_offset();
        let g = rust!(Soc, |c, out: Out, ds: In, z: In| c.Δs_from_Δz_offset(
            out,
            ds,
            &mut [],
            z
        ));
        calls.rooted(
            "soc ds_from_dz_offset",
            || unsafe { f(y.at, n, ds.at, n, z.at, n, w.at, n, l.at, n, eta.at) },
            || g(cone(), y.slice(), ds.slice(), z.slice()),
        );

        let f = at::akm_soc_margins();
        let g = rust!(Soc, |c, z: Out| c.margins(z, PrimalOrDualCone::PrimalCone));
        calls.rooted(
            "soc margins",
            || unsafe { f(z.at, n, p, q) },
            || tell_both(pair, g(cone(), z.slice())),
        );

        let f = at::akm_soc_step_length();
        let g = rust!(Soc, |c, dz: In, ds: In, z: In, s: In, limit: f64| c
            .step_length(dz, ds, z, s, &SETTINGS, limit));
        calls.rooted(
            "soc step_length",
            || unsafe { f(dz.at, n, ds.at, n, z.at, n, s.at, n, LIMIT, p, q) },
            || {
                tell_both(
                    pair,
                    g(cone(), dz.slice(), ds.slice(), z.slice(), s.slice(), LIMIT),
                )
            },
        );

        let f = at::akm_soc_combined_ds_shift();
        let g = rust!(Soc, |c,
                            shift: Out,
                            step_z: Out,
                            step_s: Out,
                            sigma_mu: f64| c
            .combined_ds_shift(shift, step_z, step_s, sigma_mu));
        calls.settled(
            "soc combined_ds_shift",
            || cone().set_identity_scaling(),
            || unsafe { f(y.at, n, step_z.at, n, step_s.at, n, 0.25, w.at, n, eta.at) },
            || g(cone(), y.slice(), step_z.slice(), step_s.slice(), 0.25),
        );

        let f = at::akm_soc_update_scaling();
        let g = rust!(Soc, |c, s: In, z: In| c.update_scaling(
            s,
            z,
            1.0,
            ScalingStrategy::PrimalDual
        ));
        calls.rooted(
            "soc update_scaling",
            || unsafe {
                let no = f(
                    s.at, n, z.at, n, w.at, n, l.at, n, u.at, n, v.at, n, eta.at, d.at, told,
                );
                tell(pair, *told);
                no
            },
            || tell(pair, g(cone(), s.slice(), z.slice()) as u8),
        );
    }
}

pub fn nn(bench: &Bench, random: &mut Random) {
    for n in SIZES {
        let [s, z] = [0, 1].map(|_| kept(above(random, n)));
        let [ds, dz, y, step_z, step_s] = [0, 1, 2, 3, 4].map(|_| kept(vector(random, n)));
        let pair = kept(vec![0.0; 2]);
        let (p, q) = (pair.at, unsafe { pair.at.add(1) });
        let mut told = 2;
        let told: *mut u8 = &mut told;

        let c = Box::leak(Box::new(Nn::new(n)));
        c.update_scaling(s.slice(), z.slice(), 1.0, ScalingStrategy::PrimalDual);
        let (w, l) = (Lent::new(c.w()), Lent::new(c.λ()));
        let c: *mut Nn = c;
        let cone = || unsafe { &mut *c };
        let calls = Calls {
            bench,
            n,
            seen: vec![y, step_z, step_s, pair, w, l],
        };

        let f = at::akm_nn_mul_w();
        let g = rust!(Nn, |c, y: Out, x: In, a: f64, b: f64| c.mul_W(
            MatrixShape::N,
            y,
            x,
            a,
            b
        ));
        calls.call(
            "nn mul_w",
            || unsafe { f(y.at, n, z.at, n, 0.75, 0.5, w.at, n) },
            || g(cone(), y.slice(), z.slice(), 0.75, 0.5),
        );

        let f = at::akm_nn_mul_winv();
        let g = rust!(Nn, |c, y: Out, x: In, a: f64, b: f64| c.mul_Winv(
            MatrixShape::N,
            y,
            x,
            a,
            b
        ));
        calls.call(
            "nn mul_winv",
            || unsafe { f(y.at, n, z.at, n, 0.75, 0.5, w.at, n) },
            || g(cone(), y.slice(), z.slice(), 0.75, 0.5),
        );

        let f = at::akm_nn_mul_hs();
        let g = rust!(Nn, |c, y: Out, x: In| c.mul_Hs(y, x, &mut []));
        calls.call(
            "nn mul_hs",
            || unsafe { f(y.at, n, z.at, n, w.at, n) },
            || g(cone(), y.slice(), z.slice()),
        );

        let f = at::akm_nn_circ_op();
        let g = rust!(Nn, |c, x: Out, y: In, z: In| c.circ_op(x, y, z));
        calls.call(
            "nn circ_op",
            || unsafe { f(y.at, n, ds.at, n, z.at, n) },
            || g(cone(), y.slice(), ds.slice(), z.slice()),
        );

        let f = at::akm_nn_inv_circ_op();
        let g = rust!(Nn, |c, x: Out, y: In, z: In| c.inv_circ_op(x, y, z));
        calls.call(
            "nn inv_circ_op",
            || unsafe { f(y.at, n, z.at, n, ds.at, n) },
            || g(cone(), y.slice(), z.slice(), ds.slice()),
        );

        let f = at::akm_nn_get_hs();
        let g = rust!(Nn, |c, hs: Out| c.get_Hs(hs));
        calls.call(
            "nn get_hs",
            || unsafe { f(y.at, n, w.at, n) },
            || g(cone(), y.slice()),
        );

        let f = at::akm_nn_ds_from_dz_offset();
        let g = rust!(Nn, |c, out: Out, ds: In, z: In| c.Δs_from_Δz_offset(
            out,
            ds,
            &mut [],
            z
        ));
        calls.call(
            "nn ds_from_dz_offset",
            || unsafe { f(y.at, n, ds.at, n, z.at, n) },
            || g(cone(), y.slice(), ds.slice(), z.slice()),
        );

        let f = at::akm_nn_margins();
        let g = rust!(Nn, |c, z: Out| c.margins(z, PrimalOrDualCone::PrimalCone));
        calls.call(
            "nn margins",
            || unsafe { f(z.at, n, p, q) },
            || tell_both(pair, g(cone(), z.slice())),
        );

        let f = at::akm_nn_step_length();
        let g = rust!(Nn, |c, dz: In, ds: In, z: In, s: In, limit: f64| c
            .step_length(dz, ds, z, s, &SETTINGS, limit));
        calls.call(
            "nn step_length",
            || unsafe { f(dz.at, n, ds.at, n, z.at, n, s.at, n, LIMIT, p, q) },
            || {
                tell_both(
                    pair,
                    g(cone(), dz.slice(), ds.slice(), z.slice(), s.slice(), LIMIT),
                )
            },
        );

        let f = at::akm_nn_combined_ds_shift();
        let g = rust!(Nn, |c,
                           shift: Out,
                           step_z: Out,
                           step_s: Out,
                           sigma_mu: f64| c
            .combined_ds_shift(shift, step_z, step_s, sigma_mu));
        calls.settled(
            "nn combined_ds_shift",
            || cone().set_identity_scaling(),
            || unsafe { f(y.at, n, step_z.at, n, step_s.at, n, 0.25, w.at, n) },
            || g(cone(), y.slice(), step_z.slice(), step_s.slice(), 0.25),
        );

        let f = at::akm_nn_update_scaling();
        let g = rust!(Nn, |c, s: In, z: In| c.update_scaling(
            s,
            z,
            1.0,
            ScalingStrategy::PrimalDual
        ));
        calls.rooted(
            "nn update_scaling",
            || unsafe {
                let no = f(s.at, n, z.at, n, w.at, n, l.at, n, told);
                tell(pair, *told);
                no
            },
            || tell(pair, g(cone(), s.slice(), z.slice()) as u8),
        );
    }
}
