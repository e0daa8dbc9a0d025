//! The proved cone kernels, as safe Rust. Each call takes any lengths and any numbers, NaN included; its
//! answer is a value or the first refusal that applies, and a refused call has written nothing. What each
//! call computes is said in `include/akmuzrel.h` and proved in the crates beside it.
//!
//! `soc` and `nn` have the calls on one second-order or nonnegative cone by itself, `list` those on a cone
//! of a list: the row of cones and the cone's index come first, and every buffer is that of the whole list.

#[macro_use]
mod call;

use std::fmt;

/// Why a call was refused, by the library's numbers.
#[derive(Clone, Copy, Debug, PartialEq, Eq)]
#[repr(u8)]
pub enum Refusal {
    /// A dimension is outside its range: 2 to 4,096 for second-order, 0 to 4,096 for nonnegative cones.
    Dimension = 1,
    /// Over 256 cones, or over 65,536 entries in all.
    Size = 2,
    /// A cone does not start where the one before it ends.
    Start = 3,
    /// The cone named is not in the list.
    Cone = 4,
    /// A slice has the wrong length.
    Length = 5,
    /// A step's limit is NaN or below zero.
    Limit = 6,
    /// The square block is asked of a cone that has none: it is nonnegative, or has over 4 entries.
    NotDense = 7,
    /// The mark of the list's cone says that what the call reads is not set.
    Mark = 8,
}

impl Refusal {
    fn of(number: u8) -> Result<(), Refusal> {
        use Refusal::*;
        let refusals = [Dimension, Size, Start, Cone, Length, Limit, NotDense, Mark];
        match number.checked_sub(1) {
            None => Ok(()),
            Some(at) => Err(refusals[usize::from(at)]),
        }
    }
}

impl fmt::Display for Refusal {
    fn fmt(&self, to: &mut fmt::Formatter) -> fmt::Result {
        to.write_str(match self {
            Refusal::Dimension => "a dimension is outside its range",
            Refusal::Size => "over 256 cones, or over 65,536 entries",
            Refusal::Start => "a cone does not start where the one before it ends",
            Refusal::Cone => "the cone named is not in the list",
            Refusal::Length => "a slice has the wrong length",
            Refusal::Limit => "the limit is NaN or below zero",
            Refusal::NotDense => "the cone has no square block",
            Refusal::Mark => "the cone's mark says that what is read is not set",
        })
    }
}

impl std::error::Error for Refusal {}

/// Where a point stands towards its cone.
#[derive(Clone, Copy, Debug, PartialEq, Eq)]
#[repr(u8)]
pub enum Standing {
    Inside = 0,
    Edge = 1,
    Outside = 2,
    /// Inside the mirror image of a second-order cone.
    Mirrored = 3,
    NotNumber = 4,
}

impl Standing {
    fn of(number: u8) -> Standing {
        use Standing::*;
        [Inside, Edge, Outside, Mirrored, NotNumber][usize::from(number)]
    }
}

/// What set a cone's scaling last: the marks of a list have a byte for each cone. `list::set_identity_scaling` and
/// a scaling that answers true set it, and nothing else.
#[derive(Clone, Copy, Debug, PartialEq, Eq)]
#[repr(u8)]
pub enum Mark {
    /// Nothing: what reads w, eta, d or lambda is refused.
    Fresh = 0,
    /// Identity scaling, which leaves lambda: what reads lambda is refused.
    Identity = 1,
    Scaled = 2,
}

/// A byte that is no mark counts as Fresh.
impl From<u8> for Mark {
    fn from(byte: u8) -> Mark {
        match byte {
            1 => Mark::Identity,
            2 => Mark::Scaled,
            _ => Mark::Fresh,
        }
    }
}

impl From<Mark> for u8 {
    fn from(mark: Mark) -> u8 {
        mark as u8
    }
}

/// What the scaling of a whole list came to.
#[derive(Clone, Copy, Debug, PartialEq, Eq)]
pub enum Scaled {
    /// Every cone answered true, as of a list without cones.
    AllTrue,
    /// The first cone that answered false, by its index: it and the cones behind it are as they were.
    FalseAt(usize),
}

impl Scaled {
    fn of(truth: u8, cone: usize) -> Scaled {
        match truth {
            1 => Scaled::AllTrue,
            _ => Scaled::FalseAt(cone),
        }
    }
}

#[derive(Clone, Copy, Debug, PartialEq, Eq)]
#[repr(usize)]
pub enum Kind {
    Nonnegative = 0,
    SecondOrder = 1,
}

/// A record of a list of cones: where its entries start in each buffer, what it is, and how many it has.
#[derive(Clone, Copy, Debug, PartialEq, Eq)]
#[repr(C)]
pub struct Cone {
    pub start: usize,
    pub kind: Kind,
    pub dimension: usize,
}

/// The records of cones that lie one behind the other.
pub fn row(cones: &[(Kind, usize)]) -> Vec<Cone> {
    let mut start = 0;
    let lay = |&(kind, dimension): &(Kind, usize)| {
        let cone = Cone { start, kind, dimension };
        start += dimension;
        cone
    };
    cones.iter().map(lay).collect()
}

/// How many numbers a cone's block has in the buffer of the blocks.
pub fn block_numbers(kind: Kind, dimension: usize) -> usize {
    match kind {
        Kind::SecondOrder if dimension <= 4 => dimension * (dimension + 1) / 2,
        _ => dimension,
    }
}

calls! {
    /// w, lambda, u, v and eta all +0, d all 1, whatever their lengths: nothing is refused.
    fresh_state: akm_fresh_state(writes w, writes lambda, writes u, writes v, writes eta, writes d) -> nothing;
}

/// What a list of cones stores from call to call: w, lambda, u and v for each entry, eta, d and a [`Mark`]'s byte for
/// each cone.
#[derive(Clone, Debug, PartialEq)]
pub struct State {
    pub w: Vec<f64>,
    pub lambda: Vec<f64>,
    pub u: Vec<f64>,
    pub v: Vec<f64>,
    pub eta: Vec<f64>,
    pub d: Vec<f64>,
    pub marks: Vec<u8>,
}

impl State {
    /// A fresh one, for so many entries together and so many cones, each marked Fresh.
    pub fn fresh(entries: usize, cones: usize) -> State {
        let [mut w, mut lambda, mut u, mut v] = [(); 4].map(|()| vec![0.0; entries]);
        let [mut eta, mut d] = [(); 2].map(|()| vec![0.0; cones]);
        fresh_state(&mut w, &mut lambda, &mut u, &mut v, &mut eta, &mut d);
        State { w, lambda, u, v, eta, d, marks: vec![Mark::Fresh.into(); cones] }
    }
}

/// The block of a cone of up to 4 entries as a matrix, by rows; +0 beyond the dimension.
pub type Square = [[f64; 4]; 4];

#[repr(C)]
struct SquareAnswer {
    number: u8,
    rows: Square,
}

/// Operations on numbers.
pub mod numbers {
    extern "C" {
        fn akm_sqrt(x: f64) -> f64;
        fn akm_least(a: f64, b: f64) -> f64;
        fn akm_greatest(a: f64, b: f64) -> f64;
    }

    /// The double nearest the root.
    pub fn sqrt(x: f64) -> f64 {
        unsafe { akm_sqrt(x) }
    }

    /// A NaN counts as missing; of two opposite zeros the first.
    pub fn least(a: f64, b: f64) -> f64 {
        unsafe { akm_least(a, b) }
    }

    /// A NaN counts as missing; of two opposite zeros the first.
    pub fn greatest(a: f64, b: f64) -> f64 {
        unsafe { akm_greatest(a, b) }
    }
}

/// The second-order cone by itself. A cone of up to 4 entries is dense and keeps u, v and d as they are.
pub mod soc {
    calls! {
        // soc: written by tools/surface
        /// alpha = z0 - |z1|, beta = the greatest of 0 and alpha
        margins: akm_soc_margins(reads z) -> pair;
        /// z += alpha*(1, 0, ..)
        scaled_unit_shift: akm_soc_scaled_unit_shift(writes z, number alpha) -> done;
        /// z = s = (1, 0, ..)
        unit_initialization: akm_soc_unit_initialization(writes z, writes s) -> done;
        /// w = (1, 0, ..), eta = 1; above 4 entries also d = 1/2, u = (1/sqrt 2, 0, ..) and v = 0. lambda stays
        set_identity_scaling: akm_soc_set_identity_scaling(writes w, writes u, writes v, stores eta, stores d) -> done;
        /// truth = true, or false where s, z or the new w has no root scale: then nothing else is written. A mirrored
        /// point has one, a fault that is kept: s = z = (-2, 0) gives true and puts a NaN into lambda. The standing
        /// tells such a point
        update_scaling: akm_soc_update_scaling(reads s, reads z, writes w, writes lambda, writes u, writes v, stores eta, stores d) -> truth;
        /// hs has n numbers for n above 4, else n(n+1)/2: the upper triangle by columns
        get_hs: akm_soc_get_hs(writes hs, reads w, lent eta, lent d) -> done;
        /// the block of a cone of up to 4 entries as a matrix, +0 beyond the dimension and where it is refused: the
        /// answer is the whole struct, which is written in either case
        square_hs: akm_soc_square_hs(reads w, lent eta) -> square;
        /// y = Hs*x
        mul_hs: akm_soc_mul_hs(writes y, reads x, reads w, lent eta) -> done;
        /// ds = lambda's Jordan product with itself
        affine_ds: akm_soc_affine_ds(writes ds, reads lambda) -> done;
        /// shift = Ds*Dz - sigma_mu*(1, 0, ..), with Dz = W*step_z and Ds = W's inverse times step_s, which are left
        /// in step_z and step_s
        combined_ds_shift: akm_soc_combined_ds_shift(writes shift, writes step_z, writes step_s, number sigma_mu, reads w, lent eta) -> done;
        /// out = the constant part of Ds as a function of Dz
        ds_from_dz_offset: akm_soc_ds_from_dz_offset(writes out, reads ds, reads z, reads w, reads lambda, lent eta) -> done;
        /// step_z = z along dz, step_s = s along ds
        step_length: akm_soc_step_length(reads dz, reads ds, reads z, reads s, number limit) -> pair;
        /// how far x may go along y, at most limit; it lies in [0, limit]. Along a y of residual 0 it heeds the one
        /// root: (1, 0) along (-1, 1) with limit 1 gives a half. A fault that is kept: from an x of residual 0 along
        /// a y of residual above 0 it is the limit, lowered where the first entry would pass 0, also where y points
        /// down: (1, 1) along (-1, 0) with limit 1 gives 1, though no step stays inside
        step: akm_soc_step(reads x, reads y, number limit) -> number;
        /// y = alpha*W*x + beta*y
        mul_w: akm_soc_mul_w(writes y, reads x, number alpha, number beta, reads w, lent eta) -> done;
        /// y = alpha*x/W + beta*y, with W's inverse
        mul_winv: akm_soc_mul_winv(writes y, reads x, number alpha, number beta, reads w, lent eta) -> done;
        /// x = the Jordan product of y and z
        circ_op: akm_soc_circ_op(writes x, reads y, reads z) -> done;
        /// the x whose Jordan product with y is z
        inv_circ_op: akm_soc_inv_circ_op(writes x, reads y, reads z) -> done;
        /// the x whose Jordan product with lambda is z
        lambda_inv_circ_op: akm_soc_lambda_inv_circ_op(writes x, reads z, reads lambda) -> done;
        /// standing = where z stands, one of five
        standing: akm_soc_standing(reads z) -> standing;
        /// value = (z0 - |z1|) * (z0 + |z1|), z1 the entries from 1 on
        residual: akm_soc_residual(reads z) -> number;
        /// the residual of z + alpha*dz
        residual_shifted: akm_soc_residual_shifted(reads z, reads dz, number alpha) -> number;
        /// the residual's root where it is above 0, else 0
        sqrt_residual: akm_sqrt_soc_residual(reads z) -> number;
        // end
    }
}

/// The nonnegative cone by itself: the same calls, entry by entry.
pub mod nn {
    calls! {
        // nn: written by tools/surface
        /// alpha = the least entry, from infinity; beta = the sum of the entries above 0
        margins: akm_nn_margins(reads z) -> pair;
        /// z += alpha*(1, 1, ..)
        scaled_unit_shift: akm_nn_scaled_unit_shift(writes z, number alpha) -> done;
        /// z = s = (1, 1, ..)
        unit_initialization: akm_nn_unit_initialization(writes z, writes s) -> done;
        /// w = (1, 1, ..)
        set_identity_scaling: akm_nn_set_identity_scaling(writes w) -> done;
        /// lambda = sqrt(s*z), w = sqrt(s/z); truth = true
        update_scaling: akm_nn_update_scaling(reads s, reads z, writes w, writes lambda) -> truth;
        /// hs = w*w
        get_hs: akm_nn_get_hs(writes hs, reads w) -> done;
        /// y = w*(w*x)
        mul_hs: akm_nn_mul_hs(writes y, reads x, reads w) -> done;
        /// ds = lambda*lambda
        affine_ds: akm_nn_affine_ds(writes ds, reads lambda) -> done;
        /// shift = Ds*Dz - sigma_mu*(1, 1, ..), with Dz = w*step_z and Ds = step_s/w, which are left in step_z and
        /// step_s
        combined_ds_shift: akm_nn_combined_ds_shift(writes shift, writes step_z, writes step_s, number sigma_mu, reads w) -> done;
        /// out = ds/z
        ds_from_dz_offset: akm_nn_ds_from_dz_offset(writes out, reads ds, reads z) -> done;
        /// step_z = z along dz, step_s = s along ds
        step_length: akm_nn_step_length(reads dz, reads ds, reads z, reads s, number limit) -> pair;
        /// the least of limit and each -x/y with y below 0. It can be negative, where an entry of x is: (-1) along
        /// (-1) with limit 1 gives -1. So can a list's step
        step: akm_nn_step(reads x, reads y, number limit) -> number;
        /// y = alpha*(x*w) + beta*y
        mul_w: akm_nn_mul_w(writes y, reads x, number alpha, number beta, reads w) -> done;
        /// y = alpha*(x/w) + beta*y
        mul_winv: akm_nn_mul_winv(writes y, reads x, number alpha, number beta, reads w) -> done;
        /// x = y*z
        circ_op: akm_nn_circ_op(writes x, reads y, reads z) -> done;
        /// x = z/y
        inv_circ_op: akm_nn_inv_circ_op(writes x, reads y, reads z) -> done;
        /// x = z/lambda
        lambda_inv_circ_op: akm_nn_lambda_inv_circ_op(writes x, reads z, reads lambda) -> done;
        /// standing = where z stands, one of five, but never mirrored
        standing: akm_nn_standing(reads z) -> standing;
        // end
    }
}

/// One cone of a list. The vectors are as long as all entries together, `eta` and `d` have a number for each
/// cone, `hs` holds each cone's block behind the other; nothing outside the cone's own ranges is read or written.
pub mod list {
    calls! {
        // list: written by tools/surface
        margins: akm_list_margins(row list, index k, reads z) -> pair;
        scaled_unit_shift: akm_list_scaled_unit_shift(row list, index k, writes z, number alpha) -> done;
        unit_initialization: akm_list_unit_initialization(row list, index k, writes z, writes s) -> done;
        /// sets the mark to Identity
        set_identity_scaling: akm_list_set_identity_scaling(row list, index k, writes w, writes u, writes v, writes eta, writes d, sets marks) -> done;
        /// a true sets the mark to Scaled, a false keeps it
        update_scaling: akm_list_update_scaling(row list, index k, reads s, reads z, writes w, writes lambda, writes u, writes v, writes eta, writes d, sets marks) -> truth;
        /// refused with 8 unless the mark is Identity or Scaled
        get_hs: akm_list_get_hs(row list, index k, writes hs, reads w, reads eta, reads d, heeds marks) -> done;
        /// refused with 8 unless the mark is Identity or Scaled
        square_hs: akm_list_square_hs(row list, index k, reads w, reads eta, heeds marks) -> square;
        /// refused with 8 unless the mark is Identity or Scaled
        mul_hs: akm_list_mul_hs(row list, index k, writes y, reads x, reads w, reads eta, heeds marks) -> done;
        /// refused with 8 unless the mark is Scaled
        affine_ds: akm_list_affine_ds(row list, index k, writes ds, reads lambda, heeds marks) -> done;
        /// refused with 8 unless the mark is Identity or Scaled
        combined_ds_shift: akm_list_combined_ds_shift(row list, index k, writes shift, writes step_z, writes step_s, number sigma_mu, reads w, reads eta, heeds marks) -> done;
        /// of a second-order cone refused with 8 unless the mark is Scaled; of a nonnegative one open on any mark
        ds_from_dz_offset: akm_list_ds_from_dz_offset(row list, index k, writes out, reads ds, reads z, reads w, reads lambda, reads eta, heeds marks) -> done;
        step_length: akm_list_step_length(row list, index k, reads dz, reads ds, reads z, reads s, number limit) -> pair;
        /// refused with 8 unless the mark is Identity or Scaled
        mul_w: akm_list_mul_w(row list, index k, writes y, reads x, number alpha, number beta, reads w, reads eta, heeds marks) -> done;
        /// refused with 8 unless the mark is Identity or Scaled
        mul_winv: akm_list_mul_winv(row list, index k, writes y, reads x, number alpha, number beta, reads w, reads eta, heeds marks) -> done;
        circ_op: akm_list_circ_op(row list, index k, writes x, reads y, reads z) -> done;
        inv_circ_op: akm_list_inv_circ_op(row list, index k, writes x, reads y, reads z) -> done;
        /// refused with 8 unless the mark is Scaled
        lambda_inv_circ_op: akm_list_lambda_inv_circ_op(row list, index k, writes x, reads z, reads lambda, heeds marks) -> done;
        standing: akm_list_standing(row list, index k, reads z) -> standing;
        /// the whole list's scaling: the calls on cone 0, 1, .. made one by one, up to and including the first that
        /// answers false. truth = true for all, which leaves cone as it was, and is so of no cones; or false, and
        /// cone = that cone's index: it and the cones behind it keep all their numbers and marks, the cones before it
        /// are Scaled
        whole_update_scaling: akm_whole_update_scaling(row list, reads s, reads z, writes w, writes lambda, writes u, writes v, writes eta, writes d, sets marks) -> scalings;
        /// the whole list's step: each cone's at the caller's limit, and of each side the least; the limit twice for
        /// no cones
        whole_step_length: akm_whole_step_length(row list, reads dz, reads ds, reads z, reads s, number limit) -> pair;
        // end
    }
}
