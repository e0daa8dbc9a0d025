// Sweeps over a list of 256 cones of 4 entries: over places, which are found once, and over the row, which is
// walked for every cone, beside as many bare calls. All three are proved code; the bare calls stand where
// Rust's times stand on the other lines.
use super::{same, vector, Bench, Lent};
use crate::random::Random;
use std::hint::black_box;

const CONES: usize = 256;
const DIM: usize = 4;
const ALL: usize = CONES * DIM;
const BLOCK: usize = DIM * (DIM + 1) / 2;

pub type P = *mut f64;
pub type M = *mut u8;
pub type N = usize;
// a record: start, kind, dimension; a place: crates/sweeps says which numbers
pub type Row = *const [usize; 3];
pub type Place = *const [usize; 8];

#[rustfmt::skip]
extern "C" {
    fn akm_soc_mul_w(y: P, _: N, x: P, _: N, a: f64, b: f64, w: P, _: N, eta: P) -> u8;
    fn akm_list_mul_w(list: Row, _: N, k: N, y: P, _: N, x: P, _: N, a: f64, b: f64, w: P, _: N, eta: P, _: N, marks: M, _: N) -> u8;
    fn measured_mul_w_at(at: Place, y: P, _: N, x: P, _: N, a: f64, b: f64, w: P, _: N, eta: P, _: N, marks: M, _: N) -> u8;
    fn akm_soc_update_scaling(s: P, _: N, z: P, _: N, w: P, _: N, l: P, _: N, u: P, _: N, v: P, _: N, eta: P, d: P, told: *mut u8) -> u8;
    fn akm_list_update_scaling(list: Row, _: N, k: N, s: P, _: N, z: P, _: N, w: P, _: N, l: P, _: N, u: P, _: N, v: P, _: N, eta: P, _: N, d: P, _: N, marks: M, _: N, told: *mut u8) -> u8;
    pub fn measured_update_scaling_at(at: Place, s: P, _: N, z: P, _: N, w: P, _: N, l: P, _: N, u: P, _: N, v: P, _: N, eta: P, _: N, d: P, _: N, marks: M, _: N, told: *mut u8) -> u8;
}

pub fn kept(x: Vec<f64>) -> Lent {
    Lent::new(x.leak())
}

// Marks of fresh cones: a scaling that answers true makes them Scaled, 2.
pub fn fresh_marks(cones: usize) -> &'static mut [u8] {
    vec![0; cones].leak()
}

// Points inside every cone, one behind the other.
pub fn inside(random: &mut Random, cones: usize, dim: usize) -> Vec<f64> {
    let mut all = vector(random, cones * dim);
    for x in all.chunks_mut(dim) {
        x[0] = 0.5 + 1.5 * x[1..].iter().map(|x| x * x).sum::<f64>().sqrt();
    }
    all
}

// One sweep beside another, from the same contents: they leave the same, and are timed.
fn sweep(
    bench: &Bench,
    name: &str,
    seen: &[Lent],
    one: impl Fn(usize) -> u8,
    other: impl Fn(usize) -> u8,
) {
    if !bench.wanted(name) {
        return;
    }
    let contents = || seen.iter().map(|x| x.slice().to_vec()).collect::<Vec<_>>();
    let restore = |old: &[Vec<f64>]| {
        seen.iter()
            .zip(old)
            .for_each(|(x, old)| x.slice().copy_from_slice(old))
    };
    let all = |call: &dyn Fn(usize) -> u8| (0..CONES).map(call).fold(0, |all, no| all | no);
    let old = contents();
    assert_eq!(all(&one), 0, "{name}: refused");
    let found = contents();
    restore(&old);
    assert_eq!(all(&other), 0, "{name}: refused");
    assert!(
        found.iter().zip(&contents()).all(|(x, y)| same(x, y)),
        "{name}: not the same"
    );
    restore(&old);
    bench.pair(
        name,
        CONES,
        CONES,
        || (0..CONES).fold(0, |all, k| all | one(black_box(k))),
        || (0..CONES).fold(0, |all, k| all | other(black_box(k))),
    );
    restore(&old);
}

pub fn lists(bench: &Bench, random: &mut Random) {
    let row: Vec<[usize; 3]> = (0..CONES).map(|k| [k * DIM, 1, DIM]).collect();
    let places: Vec<[usize; 8]> = (0..CONES)
        .map(|k| [k, k * DIM, 1, DIM, k * BLOCK, ALL, CONES, CONES * BLOCK])
        .collect();
    let [s, z] = [0, 1].map(|_| kept(inside(random, CONES, DIM)));
    let y = kept(vector(random, ALL));
    let [w, l, u, v] = [0, 1, 2, 3].map(|_| kept(vec![0.0; ALL]));
    let [eta, d] = [0, 1].map(|_| kept(vec![0.0; CONES]));
    let marks = fresh_marks(CONES).as_mut_ptr();
    let mut told = 0;
    let told: *mut u8 = &mut told;
    let at = |x: Lent, k: usize| unsafe { x.at.add(k * DIM) };
    let own = |x: Lent, k: usize| unsafe { x.at.add(k) };

    #[rustfmt::skip]
    let bare = |k| unsafe {
        akm_soc_update_scaling(at(s, k), DIM, at(z, k), DIM, at(w, k), DIM, at(l, k), DIM, at(u, k), DIM, at(v, k), DIM, own(eta, k), own(d, k), told)
    };
    #[rustfmt::skip]
    let over = |k: usize| unsafe {
        measured_update_scaling_at(&places[k], s.at, ALL, z.at, ALL, w.at, ALL, l.at, ALL, u.at, ALL, v.at, ALL, eta.at, CONES, d.at, CONES, marks, CONES, told)
    };
    #[rustfmt::skip]
    let walked = |k: usize| unsafe {
        akm_list_update_scaling(row.as_ptr(), CONES, k, s.at, ALL, z.at, ALL, w.at, ALL, l.at, ALL, u.at, ALL, v.at, ALL, eta.at, CONES, d.at, CONES, marks, CONES, told)
    };
    let seen = [y, w, l, u, v, eta, d];
    sweep(bench, "list update_scaling, places", &seen, over, bare);
    sweep(bench, "list update_scaling, the row", &seen, walked, bare);

    for k in 0..CONES {
        assert_eq!((over(k), unsafe { *marks.add(k) }), (0, 2));
    }
    #[rustfmt::skip]
    let bare = |k| unsafe { akm_soc_mul_w(at(y, k), DIM, at(z, k), DIM, 0.75, 0.5, at(w, k), DIM, own(eta, k)) };
    #[rustfmt::skip]
    let over = |k: usize| unsafe { measured_mul_w_at(&places[k], y.at, ALL, z.at, ALL, 0.75, 0.5, w.at, ALL, eta.at, CONES, marks, CONES) };
    #[rustfmt::skip]
    let walked = |k: usize| unsafe { akm_list_mul_w(row.as_ptr(), CONES, k, y.at, ALL, z.at, ALL, 0.75, 0.5, w.at, ALL, eta.at, CONES, marks, CONES) };
    sweep(bench, "list mul_w, places", &seen, over, bare);
    sweep(bench, "list mul_w, the row", &seen, walked, bare);
}
