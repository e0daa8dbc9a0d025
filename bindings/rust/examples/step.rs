//! One step of the kind that an interior-point solver takes, over a list of three cones: scale each cone, make
//! the right-hand side, find how far the whole list may go, go most of the way, and say where each cone stands.
use akmuzrel::{list, row, Kind, Refusal, State};

fn main() -> Result<(), Refusal> {
    let cones = row(&[(Kind::Nonnegative, 2), (Kind::SecondOrder, 3), (Kind::SecondOrder, 5)]);
    let n = 10;
    let mut z = vec![1.0, 2.0, 5.0, 3.0, 0.0, 4.0, 1.0, 1.0, 1.0, 1.0];
    let mut s = vec![2.0, 0.5, 5.0, -3.0, 1.0, 3.0, 0.0, 1.0, 0.0, -1.0];
    let dz = vec![-0.5, 1.0, -3.0, 1.0, 2.0, -2.0, 0.0, 1.0, 1.0, 0.5];
    let ds = vec![1.0, -0.25, 1.0, 4.0, 0.0, -1.0, 1.0, 0.0, 0.5, 1.0];

    let State { mut w, mut lambda, mut u, mut v, mut eta, mut d, mut marks } = State::fresh(n, cones.len());
    for k in 0..cones.len() {
        let scaled =
            list::update_scaling(&cones, k, &s, &z, &mut w, &mut lambda, &mut u, &mut v, &mut eta, &mut d, &mut marks)?;
        assert!(scaled, "cone {k} has no scaling at this point");
    }

    let (mut shift, mut step_z, mut step_s) = (vec![0.0; n], dz.clone(), ds.clone());
    for k in 0..cones.len() {
        list::combined_ds_shift(&cones, k, &mut shift, &mut step_z, &mut step_s, 0.1, &w, &eta, &marks)?;
    }
    println!("shift {shift:.4?}");

    let (step_z, step_s) = list::whole_step_length(&cones, &dz, &ds, &z, &s, 1.0)?;
    println!("step z {step_z:.6}, s {step_s:.6}");
    let go = 0.99 * step_z.min(step_s);
    for i in 0..n {
        z[i] += go * dz[i];
        s[i] += go * ds[i];
    }
    for k in 0..cones.len() {
        println!("cone {k}: z {:?}, s {:?}", list::standing(&cones, k, &z)?, list::standing(&cones, k, &s)?);
    }
    Ok(())
}
