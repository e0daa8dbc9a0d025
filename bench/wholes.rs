// The scaling of a whole list in one call (document 02, item 1), the row walked as C has it: beside the calls
// over places, which are found once, and beside a loop over the crate's three files, a cone each, over the
// machine's root and over ours. All sides stop at a false; the points lie inside, so none does.
use super::lists::{fresh_marks, inside, kept, measured_update_scaling_at, Row, M, N, P};
use super::{same, Bench, Lent};
use crate::random::Random;
use std::hint::black_box;

#[rustfmt::skip]
extern "C" {
    fn akm_whole_update_scaling(list: Row, _: N, s: P, _: N, z: P, _: N, w: P, _: N, l: P, _: N, u: P, _: N, v: P, _: N, eta: P, _: N, d: P, _: N, marks: M, _: N, told: *mut u8, cone: *mut usize) -> u8;
}

// The loop over the files: whether all cones answered true; and what they store, as the list has it.
macro_rules! files {
    ($of:ident, $cones:expr, $dim:expr) => {{
        use $of::cones::*;
        type Soc = SecondOrderCone<f64>;
        let row: &mut Vec<Soc> = Box::leak(Box::new((0..$cones).map(|_| Soc::new($dim)).collect()));
        let row: *mut Vec<Soc> = row;
        let one: fn(&mut Soc, &[f64], &[f64]) -> bool =
            |c, s, z| c.update_scaling(s, z, 1.0, ScalingStrategy::PrimalDual);
        let one = black_box(one);
        let all = move |s: Lent, z: Lent| {
            let points = s.slice().chunks($dim).zip(z.slice().chunks($dim));
            unsafe { &mut *row }
                .iter_mut()
                .zip(points)
                .all(|(c, (s, z))| one(c, s, z))
        };
        let stored = move || {
            let row = unsafe { &*row };
            let entries = |of: fn(&Soc) -> &[f64]| {
                row.iter().flat_map(|c| of(c).to_vec()).collect::<Vec<_>>()
            };
            let more: fn(&Soc) -> [f64; 2] =
                |c| [c.η, c.sparse_data.as_ref().map_or(0.0, |more| more.d)];
            [
                entries(|c| &c.w),
                entries(|c| &c.λ),
                entries(|c| c.sparse_data.as_ref().map_or(&[], |more| &more.u)),
                entries(|c| c.sparse_data.as_ref().map_or(&[], |more| &more.v)),
                row.iter().map(|c| more(c)[0]).collect(),
                row.iter().map(|c| more(c)[1]).collect(),
            ]
        };
        (all, stored)
    }};
}

pub fn wholes(bench: &Bench, random: &mut Random) {
    for (cones, dim) in [(256, 4), (16, 4096)] {
        let all = cones * dim;
        let block = if dim > 4 { dim } else { dim * (dim + 1) / 2 };
        let row: Vec<[usize; 3]> = (0..cones).map(|k| [k * dim, 1, dim]).collect();
        let places: Vec<[usize; 8]> = (0..cones)
            .map(|k| [k, k * dim, 1, dim, k * block, all, cones, cones * block])
            .collect();
        let [s, z] = [0, 1].map(|_| kept(inside(random, cones, dim)));
        let [w, l, u, v] = [0, 1, 2, 3].map(|_| kept(vec![0.0; all]));
        let [eta, d] = [0, 1].map(|_| kept(vec![0.0; cones]));
        let marks = fresh_marks(cones).as_mut_ptr();
        let (mut told, mut cone) = (2, 0);
        let (told, cone): (*mut u8, *mut usize) = (&mut told, &mut cone);
        let seen = [w, l, u, v, eta, d];
        let contents = || seen.map(|x| x.slice().to_vec());

        #[rustfmt::skip]
        let whole = || unsafe {
            akm_whole_update_scaling(row.as_ptr(), cones, s.at, all, z.at, all, w.at, all, l.at, all, u.at, all, v.at, all, eta.at, cones, d.at, cones, marks, cones, told, cone) == 0 && *told == 1
        };
        #[rustfmt::skip]
        let over = || (0..cones).all(|k| unsafe {
            measured_update_scaling_at(&places[k], s.at, all, z.at, all, w.at, all, l.at, all, u.at, all, v.at, all, eta.at, cones, d.at, cones, marks, cones, told) == 0 && *told == 1
        });
        let name = |beside: &str| format!("whole list of {dim}, {beside}");
        if bench.wanted(&name("places")) {
            assert!(whole());
            let found = contents();
            seen.iter().for_each(|x| x.slice().fill(0.0));
            assert!(over());
            assert!(
                found.iter().zip(&contents()).all(|(x, y)| same(x, y)),
                "{}: not the same",
                name("places")
            );
            bench.pair(&name("places"), cones, cones, whole, over);
        }

        let (files, stored) = files!(clarabel, cones, dim);
        let (rooted, rooted_stored) = files!(clarabel_rooted, cones, dim);
        let sides: [(
            &str,
            &dyn Fn(Lent, Lent) -> bool,
            &dyn Fn() -> [Vec<f64>; 6],
        ); 2] = [
            ("files", &files, &stored),
            ("files, our root", &rooted, &rooted_stored),
        ];
        for (beside, all, stored) in sides {
            if bench.wanted(&name(beside)) {
                assert!(whole() && all(s, z));
                // the files store no u, v and d for a cone of up to 4 entries
                let alike = |(x, y): (&Vec<f64>, &Vec<f64>)| y.is_empty() || same(x, y);
                assert!(
                    contents().iter().zip(&stored()).all(alike),
                    "{}: not the same",
                    name(beside)
                );
                bench.pair(&name(beside), cones, cones, whole, || all(s, z));
            }
        }
    }
}
