// Every bare call that akmuzrel exports beside the crate's three files over the stand-in: the answer
// and what every lent buffer holds afterwards, bit for bit. All NaNs count as one where something was
// written; what is not written keeps its bits, NaNs too, and so do guard numbers around each buffer.
// Zeros count by value after a least or greatest (docs/DIFFERENCES.md). When a call is refused is
// document 01's table, read here in Rust; so are the standing, the square block, and the least and
// greatest, which the crate does not have. Two things are held to document 02 instead, read here too, and
// how many were is told at the end: a second-order step along a direction of residual 0 with b < 0 (item
// 3), and what is stored after a late false of a scaling: the files write w and eta there, and here all
// must keep its bits (item 4).
//
// First each call is spoiled on purpose, in up to five ways, and must be reported; the call that SPOIL
// names has its last bit turned throughout, which shows what a difference looks like. The first
// difference of a call is printed with the smallest input found; the last line is 'N passed, M failed'.
//
// compare/lists.rs takes this file in as a module.
#![allow(
    irrefutable_let_patterns,
    confusable_idents,
    mixed_script_confusables,
    uncommon_codepoints
)]

pub mod random;

use clarabel::algebra::MatrixShape;
use clarabel::cones::*;
use random::Random;
use std::ops::Range;

pub type P = *mut f64;
type Soc = SecondOrderCone<f64>;
type Nn = NonnegativeCone<f64>;

const SETTINGS: CoreSettings<f64> = CoreSettings(std::marker::PhantomData);

// ---- a call, and what it is lent

// struct akm_square
#[repr(C)]
#[derive(Clone, Copy)]
pub struct Square {
    pub no: u8,
    pub rows: [[f64; 4]; 4],
}

impl Square {
    // What no call answers, so that an answer that is not written shows.
    pub fn spoiled() -> Square {
        Square { no: u8::MAX, rows: [[f64::NAN; 4]; 4] }
    }
}

// Vectors, numbers, single lent numbers, one lent byte, the marks of a list, and the square that one call
// answers.
#[derive(Clone)]
pub struct Lent {
    pub v: Vec<Vec<f64>>,
    pub a: Vec<f64>,
    pub o: Vec<f64>,
    pub t: u8,
    pub m: Vec<u8>,
    pub rows: [[f64; 4]; 4],
}

// The same in memory, for C.
pub struct Places {
    pub v: Vec<(P, usize)>,
    pub a: Vec<f64>,
    pub o: Vec<P>,
    pub t: *mut u8,
    pub m: (*mut u8, usize),
    pub rows: [[f64; 4]; 4],
}

// What is left as it was, beyond the const arguments: nothing; all; or all here, where the files have
// written.
#[derive(Clone, Copy, PartialEq)]
pub enum Kept {
    Nothing,
    All,
    AllButByTheFiles,
}

pub enum Rust {
    Soc(fn(&mut Soc, &mut Lent) -> Kept),
    Nn(fn(&mut Nn, &mut Lent)),
    Number(fn(&mut Lent)),
}

// A name with ! is written, one with ~ too and its zeros count by value.
#[derive(Clone, Copy)]
pub struct Name {
    pub name: &'static str,
    pub written: bool,
    loose: bool,
}

pub fn names(words: &'static str) -> Vec<Name> {
    words
        .split_whitespace()
        .map(|word| Name {
            name: word.trim_end_matches(['!', '~']),
            written: word.ends_with(['!', '~']),
            loose: word.ends_with('~'),
        })
        .collect()
}

pub fn find(names: &[Name], name: &str) -> Option<usize> {
    names.iter().position(|x| x.name == name)
}

pub struct Call {
    pub name: &'static str,
    pub v: Vec<Name>,
    pub a: Vec<Name>,
    pub o: Vec<Name>,
    told: bool,
    native: fn(&mut Places) -> u8,
    rust: Rust,
}

impl Call {
    // Document 01, "Refusal numbers": the dimension is the length of the first vector, but of w for
    // blocks and identity scaling.
    fn dimension(&self) -> usize {
        let of_w = ["get_hs", "square_hs", "set_identity_scaling"];
        match of_w.iter().any(|end| self.name.ends_with(end)) {
            true => find(&self.v, "w").unwrap(),
            false => 0,
        }
    }

    pub fn length(&self, k: usize, n: usize) -> usize {
        match (self.v[k].name, &self.rust) {
            ("hs", Rust::Soc(_)) if n <= 4 => n * (n + 1) / 2,
            _ => n,
        }
    }

    fn refusal(&self, l: &Lent) -> u8 {
        if let Rust::Number(_) = self.rust {
            return 0;
        }
        let n = l.v[self.dimension()].len();
        let least = if let Rust::Soc(_) = self.rust { 2 } else { 0 };
        if !(least..=4096).contains(&n) {
            return 1;
        }
        if self.name == "akm_soc_square_hs" && n > 4 {
            return 7;
        }
        if (0..l.v.len()).any(|k| l.v[k].len() != self.length(k, n)) {
            return 5;
        }
        self.limit_refusal(l)
    }

    pub fn limit_refusal(&self, l: &Lent) -> u8 {
        match find(&self.a, "limit") {
            Some(k) if l.a[k].is_nan() || l.a[k] < 0.0 => 6,
            _ => 0,
        }
    }

    // the cone's own numbers, by their names
    fn exchange(&self, cone: &mut Soc, l: &mut Lent) {
        let mut vector = |name, x: &mut Vec<f64>| {
            if let Some(k) = find(&self.v, name) {
                std::mem::swap(&mut l.v[k], x);
            }
        };
        let mut number = |name, x: &mut f64| {
            if let Some(k) = find(&self.o, name) {
                std::mem::swap(&mut l.o[k], x);
            }
        };
        vector("w", &mut cone.w);
        vector("lambda", &mut cone.λ);
        number("eta", &mut cone.η);
        if let Some(more) = &mut cone.sparse_data {
            vector("u", &mut more.u);
            vector("v", &mut more.v);
            number("d", &mut more.d);
        }
    }

    // What the files make of it.
    fn files(&self, l: &mut Lent) -> Kept {
        let n = l.v.get(self.dimension()).map_or(0, |x| x.len());
        let at = |name| find(&self.v, name);
        match self.rust {
            Rust::Number(f) => {
                f(l);
                Kept::Nothing
            }
            Rust::Nn(f) => {
                let mut cone = Nn::new(n);
                if let Some(k) = at("w") {
                    cone.w().copy_from_slice(&l.v[k]);
                }
                if let Some(k) = at("lambda") {
                    cone.λ().copy_from_slice(&l.v[k]);
                }
                f(&mut cone, l);
                if let Some(k) = at("w") {
                    l.v[k].copy_from_slice(cone.w());
                }
                if let Some(k) = at("lambda") {
                    l.v[k].copy_from_slice(cone.λ());
                }
                Kept::Nothing
            }
            Rust::Soc(f) => {
                let mut cone = Soc::new(n);
                self.exchange(&mut cone, l);
                let kept = f(&mut cone, l);
                self.exchange(&mut cone, l);
                kept
            }
        }
    }

    pub fn due(&self, l: &Lent) -> Due {
        let mut due = Due::kept(self.refusal(l), self.name, l);
        if due.no > 0 {
            return due;
        }
        let kept = self.files(&mut due.lent);
        if kept == Kept::AllButByTheFiles {
            (due.lent.v, due.lent.o) = (l.v.clone(), l.o.clone());
        }
        let n = l.v.get(self.dimension()).map_or(0, |x| x.len());
        let dense = matches!(self.rust, Rust::Soc(_)) && n <= 4;
        let equal = |name: &Name| match name {
            Name { written: false, .. } => Equal::Bits,
            _ if kept != Kept::Nothing => Equal::Bits,
            _ if dense && ["u", "v", "d"].contains(&name.name) => Equal::Bits,
            Name { loose: true, .. } => Equal::Value,
            _ => Equal::Number,
        };
        for (k, name) in self.v.iter().enumerate() {
            if equal(name) != Equal::Bits {
                due.v[k].push(0..l.v[k].len());
            }
        }
        due.o = self.o.iter().map(equal).collect();
        due.told = self.told;
        due
    }
}

// How two numbers are compared: bit for bit; all NaNs as one; and zeros by value.
#[derive(Clone, Copy, PartialEq)]
pub enum Equal {
    Bits,
    Number,
    Value,
}

impl Equal {
    fn holds(self, x: f64, y: f64) -> bool {
        bits(x, y)
            || self != Equal::Bits && x.is_nan() && y.is_nan()
            || self == Equal::Value && x == y
    }
}

// What must come of a call: the refusal's number and what all is afterwards. Of each vector the runs that
// were written, where all NaNs count as one, of each lent number how it is compared; whether the lent
// byte was written, and whether there is a square.
pub struct Due {
    pub no: u8,
    pub lent: Lent,
    pub v: Vec<Vec<Range<usize>>>,
    pub o: Vec<Equal>,
    pub told: bool,
    square: bool,
}

impl Due {
    // Nothing is written, and the square is of +0.
    pub fn kept(no: u8, name: &str, l: &Lent) -> Due {
        let mut lent = l.clone();
        lent.rows = [[0.0; 4]; 4];
        Due {
            no,
            lent,
            v: vec![vec![]; l.v.len()],
            o: vec![Equal::Bits; l.o.len()],
            told: false,
            square: name.ends_with("square_hs"),
        }
    }
}

// ---- the calls

// The arguments in C's order: v k is a vector's pointer and length, a k a number, o k a lent number,
// t the lent byte, m the marks' pointer and length.
macro_rules! native {
    ($f:ident $($words:tt)*) => { |_l: &mut Places| native!(@ _l $f () () $($words)*) };
    (@ $l:ident $f:ident ($($x:expr),*) ($($t:ty),*)) => {{
        extern "C" { fn $f($(_: $t),*) -> u8; }
        unsafe { $f($($x),*) }
    }};
    (@ $l:ident $f:ident ($($x:expr),*) ($($t:ty),*) v $k:literal $($words:tt)*) => {
        native!(@ $l $f ($($x,)* $l.v[$k].0, $l.v[$k].1) ($($t,)* P, usize) $($words)*)
    };
    (@ $l:ident $f:ident ($($x:expr),*) ($($t:ty),*) a $k:literal $($words:tt)*) => {
        native!(@ $l $f ($($x,)* $l.a[$k]) ($($t,)* f64) $($words)*)
    };
    (@ $l:ident $f:ident ($($x:expr),*) ($($t:ty),*) o $k:literal $($words:tt)*) => {
        native!(@ $l $f ($($x,)* $l.o[$k]) ($($t,)* P) $($words)*)
    };
    (@ $l:ident $f:ident ($($x:expr),*) ($($t:ty),*) t $($words:tt)*) => {
        native!(@ $l $f ($($x,)* $l.t) ($($t,)* *mut u8) $($words)*)
    };
    (@ $l:ident $f:ident ($($x:expr),*) ($($t:ty),*) m $($words:tt)*) => {
        native!(@ $l $f ($($x,)* $l.m.0, $l.m.1) ($($t,)* *mut u8, usize) $($words)*)
    };
}

macro_rules! calls {
    ($($kind:ident $f:ident [$($words:tt)*] $v:literal, $a:literal, $o:literal: |$c:pat_param, $l:ident $(, $x:ident)*| $body:expr;)*) => {
        vec![$(Call {
            name: stringify!($f),
            v: names($v),
            a: names($a),
            o: names($o),
            told: stringify!($($words)*).ends_with('t'),
            native: native!($f $($words)*),
            rust: Rust::$kind(calls!(@ $kind |$c, $l $(, $x)*| $body)),
        }),*]
    };
    (@ Soc |$c:pat_param, $l:ident $(, $x:ident)*| $body:expr) => {
        |$c: &mut Soc, $l: &mut Lent| {
            let [$($x,)* ..] = &mut $l.v[..] else { unreachable!() };
            kept($body)
        }
    };
    (@ Nn |$c:pat_param, $l:ident $(, $x:ident)*| $body:expr) => {
        |$c: &mut Nn, $l: &mut Lent| {
            let [$($x,)* ..] = &mut $l.v[..] else { unreachable!() };
            $body
        }
    };
}

trait Keeps {
    fn kept(self) -> Kept;
}

impl Keeps for () {
    fn kept(self) -> Kept {
        Kept::Nothing
    }
}

impl Keeps for Kept {
    fn kept(self) -> Kept {
        self
    }
}

fn kept(x: impl Keeps) -> Kept {
    x.kept()
}

fn pair(o: &mut [f64], (x, y): (f64, f64)) {
    o.copy_from_slice(&[x, y]);
}

// Document 01, "Second-order rules", the step: a, b and c.
fn curvature(x: &[f64], y: &[f64]) -> (f64, f64, f64) {
    let dot = std::iter::zip(&x[1..], &y[1..]).fold(0.0, |s, (x, y)| s + x * y);
    (
        soc_residual(y),
        2.0 * (x[0] * y[0] - dot),
        f64::max(0.0, soc_residual(x)),
    )
}

// Document 02, item 3: the step where a = 0 and b < 0, the one branch in which the files do not decide.
fn mended(x: &[f64], y: &[f64], limit: f64) -> Option<f64> {
    let (a, b, c) = curvature(x, y);
    let least = |limit, ratio| chosen(limit, ratio, ratio < limit);
    let limit = match x[0] >= 0.0 && y[0] < 0.0 {
        true => least(limit, -x[0] / y[0]),
        false => limit,
    };
    (a == 0.0 && b < 0.0).then(|| least(limit, -c / b))
}

// Document 01, "Scaling": of an early false the files change nothing, of a late one they have written η
// and w. Document 02, item 4: of either nothing is changed.
fn update(c: &mut Soc, s: &[f64], z: &[f64], t: &mut u8) -> Kept {
    let told = c.update_scaling(s, z, 0.0, ScalingStrategy::PrimalDual);
    *t = told as u8;
    match told {
        true => Kept::Nothing,
        false if sqrt_soc_residual(z) == 0.0 || sqrt_soc_residual(s) == 0.0 => Kept::All,
        false => Kept::AllButByTheFiles,
    }
}

// Document 01, "Standing".
fn soc_standing(z: &[f64]) -> u8 {
    match soc_residual(z) {
        r if r.is_nan() => 4,
        0.0 => 1,
        r if r < 0.0 => 2,
        _ if z[0] > 0.0 => 0,
        _ => 3,
    }
}

fn nn_standing(z: &[f64]) -> u8 {
    if z.iter().any(|x| x.is_nan()) {
        4
    } else if z.iter().any(|x| *x < 0.0) {
        2
    } else if z.iter().any(|x| *x == 0.0) {
        1
    } else {
        0
    }
}

// Document 01, "Hs": the packed block with both triangles filled, +0 beyond the dimension.
fn square(c: &Soc) -> [[f64; 4]; 4] {
    let mut packed = [0.0; 10];
    c.get_Hs(&mut packed[..c.dim * (c.dim + 1) / 2]);
    let mut rows = [[0.0; 4]; 4];
    let mut k = 0;
    for col in 0..c.dim {
        for row in 0..=col {
            rows[row][col] = packed[k];
            rows[col][row] = packed[k];
            k += 1;
        }
    }
    rows
}

fn native_square(l: &mut Places) -> u8 {
    extern "C" {
        fn akm_soc_square_hs(square: *mut Square, w: P, w_len: usize, eta: P);
    }
    let mut square = Square::spoiled();
    unsafe { akm_soc_square_hs(&mut square, l.v[0].0, l.v[0].1, l.o[0]) };
    l.rows = square.rows;
    square.no
}

extern "C" {
    fn akm_sqrt(x: f64) -> f64;
    fn akm_least(a: f64, b: f64) -> f64;
    fn akm_greatest(a: f64, b: f64) -> f64;
}

fn number(name: &'static str, native: fn(&mut Places) -> u8, rust: fn(&mut Lent)) -> Call {
    let (v, a, o, told) = (vec![], names("a b"), names("value!"), false);
    Call {
        name,
        v,
        a,
        o,
        told,
        native,
        rust: Rust::Number(rust),
    }
}

// Document 01, "Numbers": the least of a and b, and the greatest with the test turned.
pub fn chosen(a: f64, b: f64, second: bool) -> f64 {
    if a.is_nan() || !b.is_nan() && second {
        b
    } else {
        a
    }
}

fn put(o: P, x: f64) -> u8 {
    unsafe { *o = x };
    0
}

pub fn all() -> Vec<Call> {
    use MatrixShape::N;
    use PrimalOrDualCone::PrimalCone;
    let mut all = calls![
        Soc akm_soc_residual [v 0 o 0] "z", "", "value!": |_, l, z| l.o[0] = soc_residual(z);
        Soc akm_soc_residual_shifted [v 0 v 1 a 0 o 0] "z dz", "alpha", "value!":
            |_, l, z, dz| l.o[0] = soc_residual_shifted(z, dz, l.a[0]);
        Soc akm_sqrt_soc_residual [v 0 o 0] "z", "", "value!": |_, l, z| l.o[0] = sqrt_soc_residual(z);
        Soc akm_soc_margins [v 0 o 0 o 1] "z", "", "alpha! beta~": |c, l, z| pair(&mut l.o, c.margins(z, PrimalCone));
        Soc akm_soc_scaled_unit_shift [v 0 a 0] "z!", "alpha", "": |c, l, z| c.scaled_unit_shift(z, l.a[0], PrimalCone);
        Soc akm_soc_unit_initialization [v 0 v 1] "z! s!", "", "": |c, l, z, s| c.unit_initialization(z, s);
        Soc akm_soc_standing [v 0 t] "z", "", "": |_, l, z| l.t = soc_standing(z);
        Soc akm_soc_set_identity_scaling [v 0 v 1 v 2 o 0 o 1] "w! u! v!", "", "eta! d!": |c, l| c.set_identity_scaling();
        Soc akm_soc_update_scaling [v 0 v 1 v 2 v 3 v 4 v 5 o 0 o 1 t] "s z w! lambda! u! v!", "", "eta! d!":
            |c, l, s, z| update(c, s, z, &mut l.t);
        Soc akm_soc_get_hs [v 0 v 1 o 0 o 1] "hs! w", "", "eta d": |c, l, hs| c.get_Hs(hs);
        Soc akm_soc_mul_w [v 0 v 1 a 0 a 1 v 2 o 0] "y! x w", "alpha beta", "eta": |c, l, y, x| c.mul_W(N, y, x, l.a[0], l.a[1]);
        Soc akm_soc_mul_winv [v 0 v 1 a 0 a 1 v 2 o 0] "y! x w", "alpha beta", "eta": |c, l, y, x| c.mul_Winv(N, y, x, l.a[0], l.a[1]);
        Soc akm_soc_mul_hs [v 0 v 1 v 2 o 0] "y! x w", "", "eta": |c, l, y, x| c.mul_Hs(y, x, &mut []);
        Soc akm_soc_circ_op [v 0 v 1 v 2] "x! y z", "", "": |c, l, x, y, z| c.circ_op(x, y, z);
        Soc akm_soc_inv_circ_op [v 0 v 1 v 2] "x! y z", "", "": |c, l, x, y, z| c.inv_circ_op(x, y, z);
        Soc akm_soc_lambda_inv_circ_op [v 0 v 1 v 2] "x! z lambda", "", "": |c, l, x, z| c.λ_inv_circ_op(x, z);
        Soc akm_soc_affine_ds [v 0 v 1] "ds! lambda", "", "": |c, l, ds| c.affine_ds(ds, &[]);
        Soc akm_soc_ds_from_dz_offset [v 0 v 1 v 2 v 3 v 4 o 0] "out! ds z w lambda", "", "eta":
            |c, l, out, ds, z| c.Δs_from_Δz_offset(out, ds, &mut [], z);
        Soc akm_soc_combined_ds_shift [v 0 v 1 v 2 a 0 v 3 o 0] "shift! step_z! step_s! w", "sigma_mu", "eta":
            |c, l, shift, step_z, step_s| c.combined_ds_shift(shift, step_z, step_s, l.a[0]);
        Soc akm_soc_step [v 0 v 1 a 0 o 0] "x y", "limit", "step~":
            |_, l, x, y| l.o[0] = mended(x, y, l.a[0]).unwrap_or(step_length_soc_component(x, y, l.a[0]));
        Soc akm_soc_step_length [v 0 v 1 v 2 v 3 a 0 o 0 o 1] "dz ds z s", "limit", "step_z~ step_s~": |c, l, dz, ds, z, s| {
            let (for_z, for_s) = c.step_length(dz, ds, z, s, &SETTINGS, l.a[0]);
            let mended = |x, y, crate_says| mended(x, y, l.a[0]).unwrap_or(crate_says);
            pair(&mut l.o, (mended(z, dz, for_z), mended(s, ds, for_s)))
        };
        Nn akm_nn_margins [v 0 o 0 o 1] "z", "", "alpha~ beta!": |c, l, z| pair(&mut l.o, c.margins(z, PrimalCone));
        Nn akm_nn_scaled_unit_shift [v 0 a 0] "z!", "alpha", "": |c, l, z| c.scaled_unit_shift(z, l.a[0], PrimalCone);
        Nn akm_nn_unit_initialization [v 0 v 1] "z! s!", "", "": |c, l, z, s| c.unit_initialization(z, s);
        Nn akm_nn_standing [v 0 t] "z", "", "": |_, l, z| l.t = nn_standing(z);
        Nn akm_nn_set_identity_scaling [v 0] "w!", "", "": |c, l| c.set_identity_scaling();
        Nn akm_nn_update_scaling [v 0 v 1 v 2 v 3 t] "s z w! lambda!", "", "":
            |c, l, s, z| l.t = c.update_scaling(s, z, 0.0, ScalingStrategy::PrimalDual) as u8;
        Nn akm_nn_get_hs [v 0 v 1] "hs! w", "", "": |c, l, hs| c.get_Hs(hs);
        Nn akm_nn_mul_hs [v 0 v 1 v 2] "y! x w", "", "": |c, l, y, x| c.mul_Hs(y, x, &mut []);
        Nn akm_nn_affine_ds [v 0 v 1] "ds! lambda", "", "": |c, l, ds| c.affine_ds(ds, &[]);
        Nn akm_nn_ds_from_dz_offset [v 0 v 1 v 2] "out! ds z", "", "": |c, l, out, ds, z| c.Δs_from_Δz_offset(out, ds, &mut [], z);
        Nn akm_nn_mul_w [v 0 v 1 a 0 a 1 v 2] "y! x w", "alpha beta", "": |c, l, y, x| c.mul_W(N, y, x, l.a[0], l.a[1]);
        Nn akm_nn_mul_winv [v 0 v 1 a 0 a 1 v 2] "y! x w", "alpha beta", "": |c, l, y, x| c.mul_Winv(N, y, x, l.a[0], l.a[1]);
        Nn akm_nn_circ_op [v 0 v 1 v 2] "x! y z", "", "": |c, l, x, y, z| c.circ_op(x, y, z);
        Nn akm_nn_inv_circ_op [v 0 v 1 v 2] "x! y z", "", "": |c, l, x, y, z| c.inv_circ_op(x, y, z);
        Nn akm_nn_lambda_inv_circ_op [v 0 v 1 v 2] "x! z lambda", "", "": |c, l, x, z| c.λ_inv_circ_op(x, z);
        Nn akm_nn_combined_ds_shift [v 0 v 1 v 2 a 0 v 3] "shift! step_z! step_s! w", "sigma_mu", "":
            |c, l, shift, step_z, step_s| c.combined_ds_shift(shift, step_z, step_s, l.a[0]);
        Nn akm_nn_step [v 0 v 1 a 0 o 0] "x y", "limit", "step~": |c, l, x, y| l.o[0] = c.step_length(y, y, x, x, &SETTINGS, l.a[0]).0;
        Nn akm_nn_step_length [v 0 v 1 v 2 v 3 a 0 o 0 o 1] "dz ds z s", "limit", "step_z~ step_s~":
            |c, l, dz, ds, z, s| pair(&mut l.o, c.step_length(dz, ds, z, s, &SETTINGS, l.a[0]));
    ];
    all.push(Call {
        name: "akm_soc_square_hs",
        v: names("w"),
        a: vec![],
        o: names("eta"),
        told: false,
        native: native_square,
        rust: Rust::Soc(|c, l| {
            l.rows = square(c);
            Kept::Nothing
        }),
    });
    all.push(number(
        "akm_sqrt",
        |l| put(l.o[0], unsafe { akm_sqrt(l.a[0]) }),
        |l| l.o[0] = l.a[0].sqrt(),
    ));
    all.push(number(
        "akm_least",
        |l| put(l.o[0], unsafe { akm_least(l.a[0], l.a[1]) }),
        |l| l.o[0] = chosen(l.a[0], l.a[1], l.a[1] < l.a[0]),
    ));
    all.push(number(
        "akm_greatest",
        |l| put(l.o[0], unsafe { akm_greatest(l.a[0], l.a[1]) }),
        |l| l.o[0] = chosen(l.a[0], l.a[1], l.a[1] > l.a[0]),
    ));
    all
}

// ---- both sides of a call, and their differences

// How a result is spoiled on purpose: a last bit of what was written, a number behind the end of a
// buffer, a number that was not to be written, the same of a refused call, the refusal's number, the last
// bit of the last lent number, the first and the last mark, and the byte behind the marks.
#[derive(Clone, Copy, Debug, PartialEq)]
pub enum Spoil {
    Nothing,
    Bit,
    Guard,
    Unwritten,
    Refused,
    Number,
    One,
    Mark,
    LastMark,
    BehindMarks,
}

const GUARD: u64 = 0x7ff4_dead_beef_0000;
const GUARDS: usize = 2;
const BESIDE: [u8; 3] = [0xa5, 0, 0x5a];

pub struct Found {
    no: u8,
    lent: Lent,
    guards: bool,
}

// The export, over one piece of memory with guards before, between and behind all buffers.
pub fn lend(
    l: &Lent,
    memory: &mut Vec<f64>,
    native: impl FnOnce(&mut Places) -> u8,
    due: &Due,
    spoil: Spoil,
) -> Found {
    memory.clear();
    let guards = [f64::from_bits(GUARD); GUARDS];
    memory.extend(guards);
    for x in
        l.v.iter()
            .map(Vec::as_slice)
            .chain(l.o.iter().map(std::slice::from_ref))
    {
        memory.extend(x);
        memory.extend(guards);
    }
    let base = memory.as_mut_ptr();
    let mut t = BESIDE;
    t[1] = l.t;
    let mut m = [&BESIDE[..1], &l.m, &BESIDE[2..]].concat();
    let mut at = GUARDS;
    let mut place = |n: usize| {
        let p = unsafe { base.add(at) };
        at += n + GUARDS;
        p
    };
    let v: Vec<_> = l.v.iter().map(|x| (place(x.len()), x.len())).collect();
    let o: Vec<_> = l.o.iter().map(|_| place(1)).collect();
    let mut places = Places {
        v,
        a: l.a.clone(),
        o,
        t: unsafe { t.as_mut_ptr().add(1) },
        m: (unsafe { m.as_mut_ptr().add(1) }, l.m.len()),
        rows: l.rows,
    };
    let mut no = native(&mut places);
    spoiled(&mut no, &mut places, due, spoil);
    let rows = places.rows;

    let mut at = 0;
    let mut guards = t[0] == BESIDE[0] && t[2] == BESIDE[2];
    guards &= m[0] == BESIDE[0] && m[l.m.len() + 1] == BESIDE[2];
    let mut next = |n: usize| {
        guards &= memory[at..at + GUARDS].iter().all(|x| x.to_bits() == GUARD);
        at += GUARDS;
        let x = memory[at..at + n].to_vec();
        at += n;
        x
    };
    let v = l.v.iter().map(|x| next(x.len())).collect();
    let o = l.o.iter().map(|_| next(1)[0]).collect();
    next(0);
    Found {
        no,
        lent: Lent {
            v,
            a: l.a.clone(),
            o,
            t: t[1],
            m: m[1..=l.m.len()].to_vec(),
            rows,
        },
        guards,
    }
}

fn spoiled(no: &mut u8, l: &mut Places, due: &Due, spoil: Spoil) {
    let turn = |p: P| unsafe { *p = f64::from_bits((*p).to_bits() ^ 1) };
    match spoil {
        Spoil::Nothing => {}
        Spoil::Number => *no ^= 1,
        Spoil::One => l.o.last().into_iter().for_each(|p| turn(*p)),
        Spoil::Mark | Spoil::LastMark if l.m.1 == 0 => {}
        Spoil::Mark => unsafe { *l.m.0 ^= 1 },
        Spoil::LastMark => unsafe { *l.m.0.add(l.m.1 - 1) ^= 2 },
        Spoil::BehindMarks => unsafe { *l.m.0.add(l.m.1) = 2 },
        Spoil::Guard => {
            if let Some((p, n)) = l.v.last() {
                unsafe { *p.add(*n) = 0.0 };
            }
        }
        Spoil::Bit => {
            let run = |k: usize| due.v[k].iter().find(|run| !run.is_empty());
            let run = (0..l.v.len()).find_map(|k| Some((k, run(k)?.start)));
            let one = (0..l.o.len()).find(|k| due.o[*k] != Equal::Bits);
            match (run, one) {
                (Some((k, at)), _) => turn(l.v[k].0.wrapping_add(at)),
                (_, Some(k)) => turn(l.o[k]),
                _ if due.told => unsafe { *l.t ^= 1 },
                _ => turn(&mut l.rows[0][0]),
            }
        }
        // beside a run that was written, if there is such a number
        Spoil::Unwritten | Spoil::Refused if (due.no > 0) == (spoil == Spoil::Refused) => {
            let mut order: Vec<usize> = (0..l.v.len()).collect();
            order.sort_by_key(|k| due.v[*k].iter().all(|run| run.is_empty()));
            for k in order {
                let ((p, n), runs) = (l.v[k], &due.v[k]);
                let unwritten = |at: &usize| *at < n && !runs.iter().any(|run| run.contains(at));
                let beside = |run: &Range<usize>| [run.end, run.start.wrapping_sub(1)];
                if let Some(at) = runs.iter().flat_map(beside).chain([0]).find(unwritten) {
                    turn(p.wrapping_add(at));
                    return;
                }
            }
        }
        Spoil::Unwritten | Spoil::Refused => {}
    }
}

fn bits(x: f64, y: f64) -> bool {
    x.to_bits() == y.to_bits()
}

// What a comparison came to: the refusal that is due, whether all that was written is a number, the first
// difference if there is one, and what all is afterwards, the marks as they are due.
pub struct Verdict {
    pub due: u8,
    pub numbers: bool,
    pub first: Option<String>,
    pub left: Lent,
}

pub fn compare(v: &[Name], o: &[Name], due: &Due, found: Found) -> Verdict {
    let told_of = |what: String, x: f64, y: f64| {
        format!(
            "{what}: {x:?} ({:#018x}), and it should be {y:?} ({:#018x})",
            x.to_bits(),
            y.to_bits()
        )
    };
    let told = &due.lent;
    let first = || {
        if found.no != due.no {
            return Some(format!("refusal {}, and it should be {}", found.no, due.no));
        }
        if !found.guards {
            return Some("written beyond the end of a buffer".to_string());
        }
        for (k, name) in v.iter().enumerate() {
            for (i, (x, y)) in std::iter::zip(&found.lent.v[k], &told.v[k]).enumerate() {
                let equal = match due.v[k].iter().any(|run| run.contains(&i)) {
                    true => Equal::Number,
                    false => Equal::Bits,
                };
                if !equal.holds(*x, *y) {
                    return Some(told_of(format!("{}[{i}]", name.name), *x, *y));
                }
            }
        }
        for (k, name) in o.iter().enumerate() {
            let (x, y) = (found.lent.o[k], told.o[k]);
            if !due.o[k].holds(x, y) {
                return Some(told_of(name.name.to_string(), x, y));
            }
        }
        if found.lent.t != told.t {
            return Some(format!(
                "told {}, and it should be {}",
                found.lent.t, told.t
            ));
        }
        if let Some(k) = (0..told.m.len()).find(|k| found.lent.m[*k] != told.m[*k]) {
            let (x, y) = (found.lent.m[k], told.m[k]);
            return Some(format!("marks[{k}]: {x}, and it should be {y}"));
        }
        for (row, col) in (0..16).map(|k| (k / 4, k % 4)).filter(|_| due.square) {
            let (x, y) = (found.lent.rows[row][col], told.rows[row][col]);
            if !Equal::Number.holds(x, y) {
                return Some(told_of(format!("row {row}, column {col}"), x, y));
            }
        }
        None
    };
    let runs = std::iter::zip(&told.v, &due.v)
        .flat_map(|(x, runs)| runs.iter().flat_map(|run| &x[run.clone()]));
    let ones = std::iter::zip(&told.o, &due.o).filter(|(_, equal)| **equal != Equal::Bits);
    let numbers = runs
        .chain(ones.map(|(x, _)| x))
        .chain(told.rows.iter().flatten())
        .all(|x| !x.is_nan());
    Verdict {
        due: due.no,
        numbers,
        first: first(),
        left: Lent {
            m: told.m.clone(),
            ..found.lent
        },
    }
}

// Which way a call took that has several, by the files.
pub fn way(call: &Call, l: &Lent) -> Option<&'static str> {
    let mut after = l.clone();
    match call.name {
        "akm_soc_update_scaling" => {
            let kept = call.files(&mut after);
            Some(match (after.t, kept) {
                (1, _) => "update_scaling: true",
                (_, Kept::All) => "update_scaling: early false",
                _ => "update_scaling: late false",
            })
        }
        "akm_soc_standing" => {
            let ways = [
                "standing: inside",
                "standing: edge",
                "standing: outside",
                "standing: mirrored",
                "standing: not a number",
            ];
            Some(ways[soc_standing(&l.v[0]) as usize])
        }
        "akm_soc_step" => {
            let (a, b, c) = curvature(&l.v[0], &l.v[1]);
            let d = b * b - 4.0 * a * c;
            Some(match () {
                _ if a > 0.0 && b > 0.0 => "step: a > 0 and b > 0",
                _ if d < 0.0 => "step: d < 0",
                _ if a == 0.0 && b < 0.0 => "step: a = 0, b < 0",
                _ if a == 0.0 => "step: a = 0",
                _ if c == 0.0 && a >= 0.0 => "step: c = 0, a > 0",
                _ if c == 0.0 && a.is_nan() => "step: c = 0, a NaN",
                _ if c == 0.0 => "step: c = 0, a < 0",
                _ if d.is_nan() => "step: roots, d NaN",
                _ if b >= 0.0 => "step: roots, b >= 0",
                _ => "step: roots, b < 0",
            })
        }
        _ => None,
    }
}

// How many steps of a call fall under document 02, item 3, and of how many the files say otherwise; how
// many scalings end in a late false, and of how many the files change what is stored.
#[derive(Clone, Copy, Default)]
pub struct Mended {
    pub steps: u64,
    pub other: u64,
    pub late: u64,
    pub changed: u64,
}

impl Mended {
    pub fn count(&mut self, call: &Call, l: &Lent) {
        if call.name == "akm_soc_update_scaling" {
            let mut after = l.clone();
            if call.files(&mut after) == Kept::AllButByTheFiles {
                let numbers = |l: &Lent| [&l.v.concat()[..], &l.o].concat();
                self.late += 1;
                self.changed += std::iter::zip(numbers(&after), numbers(l))
                    .any(|(x, y)| !Equal::Number.holds(x, y)) as u64;
            }
        }
        let at = |name| find(&call.v, name).map(|k| &l.v[k]);
        let limit = find(&call.a, "limit").filter(|_| matches!(call.rust, Rust::Soc(_)));
        let Some(limit) = limit.map(|k| l.a[k]) else {
            return;
        };
        for (x, y) in [("x", "y"), ("z", "dz"), ("s", "ds")] {
            let (Some(x), Some(y)) = (at(x), at(y)) else {
                continue;
            };
            if let Some(step) = mended(x, y, limit) {
                let files = step_length_soc_component(x, y, limit);
                self.steps += 1;
                self.other += !Equal::Value.holds(step, files) as u64;
            }
        }
    }

    pub fn print(&self) {
        let Mended {
            steps,
            other,
            late,
            changed,
        } = self;
        println!("{steps} steps with a = 0 and b < 0, held to document 02; of {other} the files say otherwise");
        println!("{late} late falses, held to document 02; of {changed} the files change what is stored");
    }
}

// ---- inputs

const SPECIAL: [f64; 18] = [
    0.0,
    -0.0,
    1.0,
    -1.0,
    f64::INFINITY,
    f64::NEG_INFINITY,
    f64::NAN,
    f64::MAX,
    f64::MIN,
    f64::MIN_POSITIVE,
    -f64::MIN_POSITIVE,
    5e-324,
    -5e-324,
    2.0,
    0.5,
    -2.0,
    1.0000000000000002,
    0.9999999999999999,
];

// whole numbers whose squares add up: the first entry is the norm of the others
const EXACT: [&[f64]; 9] = [
    &[5.0, 3.0, 4.0],
    &[13.0, 5.0, 12.0],
    &[17.0, 8.0, 15.0],
    &[3.0, 1.0, 2.0, 2.0],
    &[9.0, 1.0, 4.0, 8.0],
    &[2.0, 1.0, 1.0, 1.0, 1.0],
    &[1.0, 1.0],
    &[4.0, 2.0, 2.0, 2.0, 2.0],
    &[11.0, 2.0, 6.0, 9.0],
];

// which numbers a vector is made of
#[derive(Clone, Copy)]
pub enum Taste {
    Unit,
    Whole,
    Special,
    Any,
    Magnitudes,
    Subnormal,
    Extreme,
    Neighbours,
    Mixed,
}

const TASTES: [Taste; 9] = [
    Taste::Unit,
    Taste::Whole,
    Taste::Neighbours,
    Taste::Magnitudes,
    Taste::Special,
    Taste::Any,
    Taste::Subnormal,
    Taste::Extreme,
    Taste::Mixed,
];

impl Random {
    pub fn below(&mut self, n: usize) -> usize {
        (self.bits() >> 32) as usize * n >> 32
    }

    pub fn one_in(&mut self, n: usize) -> bool {
        self.below(n) == 0
    }

    // from -1 up to 1
    fn unit(&mut self) -> f64 {
        (self.bits() >> 11) as f64 / (1u64 << 52) as f64 - 1.0
    }

    fn power(&mut self, least: i32, most: i32) -> f64 {
        f64::powi(2.0, least + self.below((most - least + 1) as usize) as i32)
    }

    pub fn number(&mut self, taste: Taste) -> f64 {
        match taste {
            Taste::Unit => self.unit(),
            Taste::Whole => self.below(9) as f64 - 4.0,
            Taste::Special => SPECIAL[self.below(SPECIAL.len())],
            Taste::Any => f64::from_bits(self.bits()),
            Taste::Magnitudes => self.unit() * self.power(-300, 300),
            Taste::Subnormal => {
                let size = self.below(52);
                let sign = self.bits() & 1 << 63;
                f64::from_bits(self.bits() >> (12 + size) | sign)
            }
            Taste::Extreme => {
                let (least, most) =
                    [(-1022, -1000), (1000, 1023), (505, 520), (-545, -500)][self.below(4)];
                self.unit() * self.power(least, most)
            }
            Taste::Neighbours => {
                let near = [1.0, 2.0, 0.75, 4.0][self.below(4)];
                let sign = self.bits() & 1 << 63;
                f64::from_bits((f64::to_bits(near) + self.below(5) as u64 - 2) | sign)
            }
            Taste::Mixed => {
                let taste = TASTES[self.below(TASTES.len() - 1)];
                self.number(taste)
            }
        }
    }

    fn vector(&mut self, n: usize, taste: Taste) -> Vec<f64> {
        (0..n).map(|_| self.number(taste)).collect()
    }

    // A vector with a place towards the second-order cone: inside it, on its edge as the norm is
    // rounded, a bit beside that, on the edge exactly; each may be mirrored.
    fn point(&mut self, n: usize, taste: Taste) -> Vec<f64> {
        let mut x = self.vector(n, taste);
        if n == 0 {
            return x;
        }
        match self.below(8) {
            0..=2 => x[0] = norm(&x[1..]) * (1.0 + self.unit().abs()) + 0.125 * self.unit().abs(),
            3 => x[0] = norm(&x[1..]),
            4 => {
                let edge = norm(&x[1..]).to_bits();
                x[0] = f64::from_bits(edge.wrapping_add(self.below(7) as u64).wrapping_sub(3));
            }
            5 => {
                let exact = EXACT[self.below(EXACT.len())];
                if exact.len() <= n {
                    let scale = [
                        1.0,
                        1.0,
                        0.5,
                        3.0,
                        self.power(-20, 20),
                        self.power(-530, 510),
                    ][self.below(6)];
                    x.fill(0.0);
                    x[0] = exact[0] * scale;
                    for entry in &exact[1..] {
                        let mut k = 1 + self.below(n - 1);
                        while x[k] != 0.0 {
                            k = 1 + k % (n - 1);
                        }
                        x[k] = entry * scale * if self.one_in(2) { 1.0 } else { -1.0 };
                    }
                }
            }
            6 => {
                let a = [0.0, -0.0, 1.0, x[0]][self.below(4)];
                x.fill(0.0);
                x[0] = a;
            }
            _ => {}
        }
        if self.one_in(8) {
            x[0] = -x[0];
        }
        x
    }

    // inside the second-order cone, perhaps by very little
    fn inner(&mut self, n: usize, taste: Taste) -> Vec<f64> {
        let mut x = self.vector(n, taste);
        if n > 0 {
            let scale = if self.one_in(2) {
                1.0
            } else {
                self.power(-160, 160)
            };
            x.iter_mut().for_each(|x| *x *= scale);
            x[0] = norm(&x[1..]) * (1.0 + self.unit().abs() * self.power(-52, 4))
                + scale * self.power(-60, 2);
        }
        x
    }

    // A vector that has to do with another: itself, its opposite, its mirror image, a multiple.
    fn relative(&mut self, x: &[f64]) -> Vec<f64> {
        let c = [1.0, -1.0, -0.5, 2.0, 0.0, self.unit()][self.below(6)];
        let mut y: Vec<f64> = x.iter().map(|x| c * x).collect();
        if self.one_in(2) && !y.is_empty() {
            y[0] = -y[0];
        }
        y
    }

    // above zero for the most part
    fn positive(&mut self, n: usize, taste: Taste) -> Vec<f64> {
        let mut x = self.vector(n, taste);
        if !self.one_in(3) {
            x.iter_mut().for_each(|x| *x = x.abs());
        }
        x
    }

    fn limit(&mut self) -> f64 {
        match self.below(16) {
            0 => f64::NAN,
            1 => -0.0,
            2 => f64::INFINITY,
            3 => [-1.0, -5e-324, f64::NEG_INFINITY, f64::MIN][self.below(4)],
            4 => 0.0,
            5 => self.number(Taste::Mixed).abs(),
            6..=9 => 1.0,
            10..=11 => self.unit().abs(),
            _ => self.below(20) as f64,
        }
    }

    pub fn dimension(&mut self) -> usize {
        match self.below(4096) {
            0 => 4095 + self.below(3),
            1..=120 => 62 + self.below(5),
            _ => self.below(13),
        }
    }

    fn lent(&mut self, call: &Call) -> Lent {
        let n = self.dimension();
        let mut l = self.fitting(call, n);
        if self.one_in(6) {
            self.damage(&mut l, n);
        }
        l
    }

    // all lengths by the dimension
    pub fn fitting(&mut self, call: &Call, n: usize) -> Lent {
        let soc = matches!(call.rust, Rust::Soc(_));
        // half of them with points inside the cone, of numbers that can stay there
        let inner = self.one_in(2);
        let taste = TASTES[self.below(if inner { 3 } else { TASTES.len() })];
        let mut l = Lent {
            v: vec![],
            a: call
                .a
                .iter()
                .map(|name| {
                    if name.name == "limit" {
                        self.limit()
                    } else {
                        self.number(taste)
                    }
                })
                .collect(),
            o: call.o.iter().map(|_| self.number(taste)).collect(),
            t: self.bits() as u8,
            m: vec![],
            rows: [[f64::NAN; 4]; 4],
        };
        for k in 0..call.v.len() {
            let n = call.length(k, n);
            let earlier = self.below(k.max(1));
            l.v.push(match self.below(8) {
                0 if k > 0 && l.v[earlier].len() == n => {
                    let other = l.v[earlier].clone();
                    self.relative(&other)
                }
                1..=2 => self.vector(n, taste),
                3 if self.one_in(4) => vec![0.0; n],
                _ if soc && inner && ["s", "z", "x"].contains(&call.v[k].name) => {
                    self.inner(n, taste)
                }
                _ if soc => self.point(n, taste),
                _ => self.positive(n, taste),
            });
        }
        if self.below(3) > 0 {
            self.state(call, &mut l, n, taste);
        }
        if self.one_in(10) {
            self.strew(&mut l);
        }
        l
    }

    // The cone's own numbers as identity scaling or an update at two inner points leaves them.
    fn state(&mut self, call: &Call, l: &mut Lent, n: usize, taste: Taste) {
        let identity = self.one_in(3);
        match call.rust {
            Rust::Soc(_)
                if n >= 2 && !call.v.iter().any(|name| name.written && name.name == "w") =>
            {
                let mut cone = Soc::new(n);
                cone.set_identity_scaling();
                let mut z = self.vector(n, taste);
                if !identity {
                    let s = self.inner(n, taste);
                    z = self.inner(n, taste);
                    cone.update_scaling(&s, &z, 0.0, ScalingStrategy::PrimalDual);
                }
                call.exchange(&mut cone, l);
                if let Some(k) = find(&call.v, "z").filter(|_| self.one_in(2)) {
                    l.v[k] = z;
                }
            }
            Rust::Nn(_) => {
                let mut cone = Nn::new(n);
                cone.set_identity_scaling();
                if !identity {
                    let (s, z) = (self.positive(n, taste), self.positive(n, taste));
                    cone.update_scaling(&s, &z, 0.0, ScalingStrategy::PrimalDual);
                }
                if let Some(k) = find(&call.v, "w") {
                    l.v[k].copy_from_slice(cone.w());
                }
                if let Some(k) = find(&call.v, "lambda") {
                    l.v[k].copy_from_slice(cone.λ());
                }
            }
            _ => {}
        }
    }

    // lengths that may be wrong
    fn damage(&mut self, l: &mut Lent, n: usize) {
        for _ in 0..1 + self.below(2) {
            if l.v.is_empty() {
                return;
            }
            let k = self.below(l.v.len());
            let small = n.min(90);
            let lengths = [
                n.saturating_sub(1),
                n + 1,
                0,
                1,
                small * (small + 1) / 2,
                n,
                self.below(14),
                n + 4096,
            ];
            let kinds = if self.one_in(50) { 8 } else { 7 };
            let length = lengths[self.below(kinds)];
            let more = self.number(Taste::Mixed);
            l.v[k].resize(length, more);
        }
    }

    // one number somewhere is another
    fn strew(&mut self, l: &mut Lent) {
        let k = self.below(l.v.len().max(1));
        if let Some(x) = l.v.get_mut(k).filter(|x| !x.is_empty()) {
            let i = self.below(x.len());
            x[i] = self.number(Taste::Special);
        }
    }
}

fn norm(x: &[f64]) -> f64 {
    x.iter().fold(0.0, |s, x| s + x * x).sqrt()
}

// ---- the smallest input found

// Entries are dropped from every vector, many at once and then one by one; numbers become 0, 1 or -1.
fn shrink(call: &Call, mut l: Lent, fails: &mut dyn FnMut(&Lent) -> bool) -> Lent {
    loop {
        let mut smaller = false;
        let most = l.v.iter().map(Vec::len).max().unwrap_or(0);
        let mut cut = most / 2;
        while cut > 0 {
            let mut from = 0;
            while from < l.v.iter().map(Vec::len).max().unwrap_or(0) {
                let mut less = l.clone();
                for x in &mut less.v {
                    let end = x.len().min(from + cut);
                    x.drain(from.min(end)..end);
                }
                // a block that had its length has it again
                let n = |l: &Lent| l.v[call.dimension()].len();
                for k in 0..l.v.len() {
                    if l.v[k].len() == call.length(k, n(&l)) {
                        let length = call.length(k, n(&less));
                        less.v[k].resize(length, 1.0);
                    }
                }
                if less.v.iter().map(Vec::len).sum::<usize>() < l.v.iter().map(Vec::len).sum()
                    && fails(&less)
                {
                    l = less;
                    smaller = true;
                } else {
                    from += cut;
                }
            }
            cut /= 2;
        }
        if !plainer(&mut l, fails) && !smaller {
            return l;
        }
    }
}

// Numbers become 0, 1 or -1, a whole vector at once and then, if they are not too many, one by one.
pub fn plainer(l: &mut Lent, fails: &mut dyn FnMut(&Lent) -> bool) -> bool {
    let mut smaller = false;
    for k in 0..l.v.len() {
        let mut other = l.clone();
        other.v[k].fill(0.0);
        if l.v[k].iter().any(|x| !bits(*x, 0.0)) && fails(&other) {
            *l = other;
            smaller = true;
        }
    }
    let (vectors, numbers) = (l.v.iter().map(Vec::len).sum::<usize>(), l.a.len());
    if vectors > 10_000 {
        return smaller;
    }
    for k in 0..vectors + numbers + l.o.len() {
        for value in [0.0, 1.0, -1.0] {
            let mut other = l.clone();
            let x = other
                .v
                .iter_mut()
                .flatten()
                .chain(&mut other.a)
                .chain(&mut other.o)
                .nth(k)
                .unwrap();
            if bits(*x, value) {
                break;
            }
            *x = value;
            if fails(&other) {
                *l = other;
                smaller = true;
                break;
            }
        }
    }
    smaller
}

pub fn print(v: &[Name], a: &[Name], o: &[Name], l: &Lent) {
    let show = |x: &f64| format!("{x:?} ({:#018x})", x.to_bits());
    for (name, x) in std::iter::zip(v, &l.v) {
        let shown: Vec<_> = x.iter().take(16).map(show).collect();
        let more = if x.len() > 16 { ", .." } else { "" };
        println!(
            "    {} [{}] = {}{more}",
            name.name,
            x.len(),
            shown.join(", ")
        );
    }
    for (name, x) in std::iter::zip(a, &l.a).chain(std::iter::zip(o, &l.o)) {
        println!("    {} = {}", name.name, show(x));
    }
}

// ---- a run

// A call that is compared. `Left` is what earlier calls have left, where a later one can go on from that.
pub trait Compared {
    type Input;
    type Left: Default;
    fn name(&self) -> &str;
    fn spoils(&self) -> Vec<Spoil>;
    fn input(&self, random: &mut Random, left: &mut Self::Left) -> Self::Input;
    fn leave(&self, _input: &Self::Input, _verdict: Verdict, _left: &mut Self::Left) {}
    fn verdict(&self, input: &Self::Input, memory: &mut Vec<f64>, spoil: Spoil) -> Verdict;
    fn shrink(
        &self,
        input: Self::Input,
        fails: &mut dyn FnMut(&Self::Input) -> bool,
    ) -> Self::Input;
    fn print(&self, input: &Self::Input);
}

impl Compared for Call {
    type Input = Lent;
    type Left = ();

    fn name(&self) -> &str {
        self.name
    }

    fn spoils(&self) -> Vec<Spoil> {
        let mut spoils = vec![Spoil::Bit, Spoil::Number];
        if !self.v.is_empty() {
            spoils.extend([Spoil::Guard, Spoil::Refused]);
        }
        if self.v.iter().any(|name| !name.written) {
            spoils.push(Spoil::Unwritten);
        }
        spoils
    }

    fn input(&self, random: &mut Random, _: &mut ()) -> Lent {
        random.lent(self)
    }

    fn verdict(&self, l: &Lent, memory: &mut Vec<f64>, spoil: Spoil) -> Verdict {
        let due = self.due(l);
        let found = lend(l, memory, self.native, &due, spoil);
        compare(&self.v, &self.o, &due, found)
    }

    fn shrink(&self, l: Lent, fails: &mut dyn FnMut(&Lent) -> bool) -> Lent {
        shrink(self, l, fails)
    }

    fn print(&self, l: &Lent) {
        print(&self.v, &self.a, &self.o, l)
    }
}

// The count and the seed on the command line.
pub fn arguments(count: u64) -> (u64, u64) {
    let mut arguments = std::env::args()
        .skip(1)
        .map(|word| word.parse::<u64>().expect("a number"));
    (
        arguments.next().unwrap_or(count),
        arguments.next().unwrap_or(1),
    )
}

// How many passed and failed; each comparison is also shown to `seen`, with the place of its call.
pub fn run<C: Compared>(
    calls: &[C],
    (count, seed): (u64, u64),
    mut seen: impl FnMut(usize, &C::Input, &Verdict),
) -> (u64, u64) {
    let spoiled_call = std::env::var("SPOIL").unwrap_or_default();
    let mut memory = vec![];
    let (mut passed, mut failed) = (0, 0);

    let (mut spoiled, mut missed) = (0, 0);
    for call in calls {
        for spoil in call.spoils() {
            let (mut random, mut left) = (Random(seed), C::Left::default());
            // a nonnegative cone of one vector is refused from 4,097 entries on, which are rare
            let reported = (0..400_000).any(|_| {
                let input = call.input(&mut random, &mut left);
                let mut reports = |spoil| call.verdict(&input, &mut memory, spoil).first.is_some();
                reports(spoil) && !reports(Spoil::Nothing)
            });
            spoiled += 1;
            if !reported {
                missed += 1;
                println!("{}, spoiled ({spoil:?}): not reported", call.name());
            }
        }
    }
    println!("{spoiled} results spoiled on purpose, {missed} not reported");
    failed += missed;

    let (mut random, mut left) = (Random(seed), C::Left::default());
    let mut printed = vec![false; calls.len()];
    for k in 0..count {
        let at = k as usize % calls.len();
        let call = &calls[at];
        let input = call.input(&mut random, &mut left);
        let spoil = if call.name() == spoiled_call {
            Spoil::Bit
        } else {
            Spoil::Nothing
        };
        let verdict = call.verdict(&input, &mut memory, spoil);
        seen(at, &input, &verdict);
        if verdict.first.is_none() {
            passed += 1;
            call.leave(&input, verdict, &mut left);
            continue;
        }
        failed += 1;
        if !printed[at] {
            printed[at] = true;
            let mut first = |input: &C::Input| call.verdict(input, &mut memory, spoil).first;
            let small = call.shrink(input, &mut |input| first(input).is_some());
            println!("{}: {}", call.name(), first(&small).unwrap());
            call.print(&small);
        }
    }
    (passed, failed)
}

fn main() {
    let calls = all();
    let mut lines: Vec<[u64; 6]> = vec![[0; 6]; calls.len()];
    let mut ways = std::collections::BTreeMap::new();
    let mut mended = Mended::default();
    let (passed, failed) = run(&calls, arguments(10_000_000), |at, l, verdict| {
        let due = verdict.due;
        lines[at][[0, 2, 0, 0, 0, 3, 4, 5][due as usize]] += 1;
        lines[at][1] += (due == 0 && verdict.numbers) as u64;
        if due == 0 {
            mended.count(&calls[at], l);
            if let Some(way) = way(&calls[at], l) {
                *ways.entry(way).or_insert(0) += 1;
            }
        }
    });
    println!(
        "{:28} {:>9} {:>9} {:>9} {:>9} {:>9} {:>9}",
        "call", "done", "no NaN", "refused 1", "5", "6", "7"
    );
    for (call, [done, numbers, dimension, length, limit, dense]) in std::iter::zip(&calls, lines) {
        println!(
            "{:28} {done:9} {numbers:9} {dimension:9} {length:9} {limit:9} {dense:9}",
            call.name
        );
    }
    for (way, times) in ways {
        println!("{way:28} {times:9}");
    }
    mended.print();
    println!("{passed} passed, {failed} failed");
    std::process::exit((failed > 0) as i32);
}
