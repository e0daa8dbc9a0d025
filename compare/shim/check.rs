// The stand-in for clarabel answers document 01's small examples as the document has them, and
// every function of both cones can be called.
#![allow(confusable_idents)]

use clarabel::algebra::MatrixShape;
use clarabel::cones::*;
use std::marker::PhantomData;

const SETTINGS: CoreSettings<f64> = CoreSettings(PhantomData);

struct Tally {
    passed: u32,
    failed: u32,
}

impl Tally {
    // NaN counts as one number
    fn is(&mut self, name: &str, found: &[f64], told: &[f64]) {
        let same = |(x, y): (&f64, &f64)| x.is_nan() && y.is_nan() || x.to_bits() == y.to_bits();
        if found.len() == told.len() && std::iter::zip(found, told).all(same) {
            self.passed += 1;
        } else {
            self.failed += 1;
            println!("{name}: {found:?}, and document 01 has {told:?}");
        }
    }
}

// document 01, "Small examples"
fn examples(t: &mut Tally) {
    t.is("residual of (-2, 0)", &[soc_residual(&[-2.0, 0.0])], &[4.0]);

    let scaled = |s: &[f64], z: &[f64]| {
        let mut cone = SecondOrderCone::<f64>::new(2);
        let answer = cone.update_scaling(s, z, 0.0, ScalingStrategy::PrimalDual);
        [
            answer as u8 as f64,
            cone.η,
            cone.w[0],
            cone.w[1],
            cone.λ[0],
            cone.λ[1],
        ]
    };
    t.is(
        "scale s (5, 3), z (5, -3)",
        &scaled(&[5.0, 3.0], &[5.0, -3.0]),
        &[1.0, 1.0, 1.25, 0.75, 4.0, 0.0],
    );
    t.is(
        "scale s (2, 0), z (-2, 0)",
        &scaled(&[2.0, 0.0], &[-2.0, 0.0]),
        &[0.0, 1.0, 0.0, 0.0, 0.0, 0.0],
    );
    t.is(
        "scale s = z = (-2, 0)",
        &scaled(&[-2.0, 0.0], &[-2.0, 0.0]),
        &[1.0, 1.0, 1.0, 0.0, 2.0, f64::NAN],
    );

    let nonnegative = |z: &[f64], dz: &[f64], limit| {
        let one = vec![1.0; z.len()];
        NonnegativeCone::<f64>::new(z.len())
            .step_length(dz, &one, z, &one, &SETTINGS, limit)
            .0
    };
    t.is(
        "nonnegative (4, 1, 9)",
        &[nonnegative(&[4.0, 1.0, 9.0], &[-1.0, 2.0, -3.0], 10.0)],
        &[3.0],
    );
    t.is(
        "nonnegative (NaN)",
        &[nonnegative(&[f64::NAN], &[-1.0], 1.0)],
        &[1.0],
    );

    let second_order = |x: &[f64], y: &[f64], limit| step_length_soc_component(x, y, limit);
    t.is(
        "second-order (5, 0)",
        &[second_order(&[5.0, 0.0], &[0.0, 1.0], 10.0)],
        &[5.0],
    );
    t.is(
        "second-order (1, 0)",
        &[second_order(&[1.0, 0.0], &[-1.0, 1.0], 1.0)],
        &[1.0],
    );
    t.is(
        "second-order (1, 1)",
        &[second_order(&[1.0, 1.0], &[0.0, -1.0], 1.0)],
        &[0.0],
    );

    let mut cone = SecondOrderCone::<f64>::new(5);
    cone.set_identity_scaling();
    let sparse = cone.sparse_data.unwrap();
    t.is("identity: w", &cone.w, &[1.0, 0.0, 0.0, 0.0, 0.0]);
    t.is("identity: η, d", &[cone.η, sparse.d], &[1.0, 0.5]);
    t.is(
        "identity: u",
        &sparse.u,
        &[f64::from_bits(0x3FE6_A09E_667F_3BCD), 0.0, 0.0, 0.0, 0.0],
    );
    t.is("identity: v", &sparse.v, &[0.0; 5]);
    t.is(
        "margins of no entries",
        &{
            let (α, β) =
                NonnegativeCone::<f64>::new(0).margins(&mut [], PrimalOrDualCone::PrimalCone);
            [α, β]
        },
        &[f64::INFINITY, 0.0],
    );
}

// Every function once, from an inner point: the results are finite.
fn calls(t: &mut Tally, cone: &mut (impl Cone<f64> + SymmetricCone<f64>), block: usize) {
    let n = cone.numel();
    let first =
        |a: f64, b: f64| -> Vec<f64> { (0..n).map(|k| if k == 0 { a } else { b }).collect() };
    let (s, z) = (first(5.0, 0.25), first(4.0, 0.5));
    let (ds, dz) = (first(-1.0, 0.125), first(0.5, -0.25));
    let mut all = vec![];

    let (mut y, mut x) = (s.clone(), z.clone());
    cone.unit_initialization(&mut y, &mut x);
    all.extend([y.clone(), x.clone()].concat());
    cone.scaled_unit_shift(&mut y, 2.0, PrimalOrDualCone::DualCone);
    let (α, β) = cone.margins(&mut y, PrimalOrDualCone::PrimalCone);
    all.extend([α, β]);
    cone.set_identity_scaling();
    all.push(cone.update_scaling(&s, &z, 1.0, ScalingStrategy::Dual) as u8 as f64);
    let mut hs = vec![f64::NAN; block];
    cone.get_Hs(&mut hs);
    all.extend(hs);
    cone.mul_Hs(&mut y, &s, &mut x);
    all.extend(&y);
    cone.affine_ds(&mut y, &s);
    all.extend(&y);
    let (mut shift, mut step_z, mut step_s) = (first(0.0, 0.0), dz.clone(), ds.clone());
    cone.combined_ds_shift(&mut shift, &mut step_z, &mut step_s, 0.5);
    all.extend([shift, step_z, step_s].concat());
    cone.Δs_from_Δz_offset(&mut y, &ds, &mut x, &z);
    all.extend(&y);
    let (αz, αs) = cone.step_length(&dz, &ds, &z, &s, &SETTINGS, 1.0);
    all.extend([αz, αs]);
    cone.mul_W(MatrixShape::N, &mut y, &s, 2.0, 0.5);
    all.extend(&y);
    cone.mul_Winv(MatrixShape::T, &mut y, &s, 2.0, 0.5);
    all.extend(&y);
    cone.circ_op(&mut y, &s, &z);
    all.extend(&y);
    cone.inv_circ_op(&mut y, &s, &z);
    all.extend(&y);
    cone.λ_inv_circ_op(&mut y, &z);
    all.extend(&y);
    all.push(cone.compute_barrier(&z, &s, &dz, &ds, 0.5));

    let finite = all.iter().filter(|x| x.is_finite()).count();
    t.is(
        "every function gives finite numbers",
        &[finite as f64],
        &[all.len() as f64],
    );
}

fn main() {
    let mut t = Tally {
        passed: 0,
        failed: 0,
    };
    examples(&mut t);
    for n in [2, 3, 4] {
        calls(&mut t, &mut SecondOrderCone::new(n), n * (n + 1) / 2);
    }
    for n in [5, 64] {
        calls(&mut t, &mut SecondOrderCone::new(n), n);
    }
    for n in [1, 3, 64] {
        calls(&mut t, &mut NonnegativeCone::new(n), n);
    }
    let (z, dz) = ([3.0, 1.0, 2.0], [1.0, 0.5, -2.0]);
    t.is(
        "residual at z + α·dz",
        &[soc_residual_shifted(&z, &dz, 0.5)],
        &[soc_residual(&[3.5, 1.25, 1.0])],
    );
    t.is(
        "root of the residual",
        &[sqrt_soc_residual(&z)],
        &[soc_residual(&z).sqrt()],
    );
    println!("{} passed, {} failed", t.passed, t.failed);
    std::process::exit((t.failed > 0) as i32);
}
