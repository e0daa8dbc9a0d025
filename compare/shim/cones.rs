// The cones: the trait and the arguments that the files ask for, and the files.
use crate::algebra::*;

pub enum PrimalOrDualCone {
    PrimalCone,
    DualCone,
}

pub enum ScalingStrategy {
    PrimalDual,
    Dual,
}

// An argument that neither cone reads.
pub struct CoreSettings<T>(pub std::marker::PhantomData<T>);

pub trait Cone<T: FloatT> {
    fn degree(&self) -> usize;
    fn numel(&self) -> usize;
    fn is_symmetric(&self) -> bool;
    fn is_sparse_expandable(&self) -> bool;
    fn allows_primal_dual_scaling(&self) -> bool;
    fn rectify_equilibration(&self, δ: &mut [T], e: &[T]) -> bool;
    fn margins(&mut self, z: &mut [T], pd: PrimalOrDualCone) -> (T, T);
    fn scaled_unit_shift(&self, z: &mut [T], α: T, pd: PrimalOrDualCone);
    fn unit_initialization(&self, z: &mut [T], s: &mut [T]);
    fn set_identity_scaling(&mut self);
    fn update_scaling(
        &mut self, s: &[T], z: &[T], μ: T, scaling_strategy: ScalingStrategy
    ) -> bool;
    fn Hs_is_diagonal(&self) -> bool;
    fn get_Hs(&self, Hsblock: &mut [T]);
    fn mul_Hs(&mut self, y: &mut [T], x: &[T], work: &mut [T]);
    fn affine_ds(&self, ds: &mut [T], s: &[T]);
    fn combined_ds_shift(&mut self, shift: &mut [T], step_z: &mut [T], step_s: &mut [T], σμ: T);
    fn Δs_from_Δz_offset(&mut self, out: &mut [T], ds: &[T], work: &mut [T], z: &[T]);
    fn step_length(
        &mut self,
        dz: &[T],
        ds: &[T],
        z: &[T],
        s: &[T],
        settings: &CoreSettings<T>,
        αmax: T,
    ) -> (T, T);
    fn compute_barrier(&mut self, z: &[T], s: &[T], dz: &[T], ds: &[T], α: T) -> T;
}

// A file is private to its module; what stands beneath it lends out what a comparison asks for.

mod symmetric_common {
    include!(concat!(
        env!("CLARABEL_SRC"),
        "/src/solver/core/cones/symmetric_common.rs"
    ));
}
use symmetric_common::SymmetricConeUtils;
pub use symmetric_common::{JordanAlgebra, SymmetricCone};

#[allow(unused_imports)]
mod socone {
    include!(concat!(
        env!("CLARABEL_SRC"),
        "/src/solver/core/cones/socone.rs"
    ));

    pub fn soc_residual(z: &[f64]) -> f64 {
        _soc_residual(z)
    }

    pub fn sqrt_soc_residual(z: &[f64]) -> f64 {
        _sqrt_soc_residual(z)
    }

    pub fn soc_residual_shifted(z: &[f64], dz: &[f64], α: f64) -> f64 {
        _soc_residual_shifted(z, dz, α)
    }

    pub fn step_length_soc_component(x: &[f64], y: &[f64], αmax: f64) -> f64 {
        _step_length_soc_component(x, y, αmax)
    }
}
pub use socone::*;

#[allow(unused_imports)]
mod nonnegativecone {
    include!(concat!(
        env!("CLARABEL_SRC"),
        "/src/solver/core/cones/nonnegativecone.rs"
    ));

    impl<T> NonnegativeCone<T> {
        pub fn w(&mut self) -> &mut [T] {
            &mut self.w
        }

        pub fn λ(&mut self) -> &mut [T] {
            &mut self.λ
        }
    }
}
pub use nonnegativecone::*;
