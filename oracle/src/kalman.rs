//! The traits that the published files find at `crate::kalman`, as small as will do, and the published filter among them.

pub use crate::matrix::SquareMatrix;
use crate::matrix::{AsMatrix, AsMatrixMut, RowMajorSequentialDataMut};

include!(concat!(env!("OUT_DIR"), "/kalman.rs"));

/// Names for buffers: each is no more than a readable or a writable matrix of its shape.
macro_rules! buffers {
    ($($name:ident ($($size:ident),*): $first:ident<$rows:tt, $columns:tt>;)*) => { $(
        pub trait $name<$(const $size: usize,)* T>: $first<$rows, $columns, T> {}
        impl<$(const $size: usize,)* T, B: $first<$rows, $columns, T>> $name<$($size,)* T> for B {}
    )* };
}

buffers! {
    StateVector(N): AsMatrix<N, 1>;
    StateVectorMut(N): AsMatrixMut<N, 1>;
    EstimateCovarianceMatrix(N): AsMatrixMut<N, N>;
    DirectProcessNoiseCovarianceMatrix(N): AsMatrix<N, N>;
    DirectProcessNoiseCovarianceMatrixMut(N): AsMatrixMut<N, N>;
    PredictedStateEstimateVector(N): AsMatrixMut<N, 1>;
    SigmaPointMatrix(N, COUNT): AsMatrixMut<N, COUNT>;
    SigmaWeightsVectorMut(COUNT): AsMatrixMut<COUNT, 1>;
    SigmaPropagatedMatrix(N, COUNT): AsMatrixMut<N, COUNT>;
    TempSigmaPMatrix(N): AsMatrixMut<N, N>;
    MeasurementVector(M): AsMatrix<M, 1>;
    MeasurementVectorMut(M): AsMatrixMut<M, 1>;
    MeasurementNoiseCovarianceMatrix(M): AsMatrixMut<M, M>;
    InnovationCovarianceMatrix(M): AsMatrixMut<M, M>;
    KalmanGainMatrix(N, M): AsMatrixMut<N, M>;
    TemporaryResidualCovarianceInvertedMatrix(M): AsMatrixMut<M, M>;
    SigmaObservedMatrix(M, COUNT): AsMatrixMut<M, COUNT>;
    CrossCovarianceMatrix(N, M): AsMatrixMut<N, M>;
}

/// y alone is handed on as a slice, to the measurement's residual function.
pub trait InnovationVector<const M: usize, T>: AsMatrixMut<M, 1, T, TargetMut: RowMajorSequentialDataMut<M, 1, T>> {}
impl<const M: usize, T, B> InnovationVector<M, T> for B where B: AsMatrixMut<M, 1, T, TargetMut: RowMajorSequentialDataMut<M, 1, T>> {}

pub trait KalmanFilterNumStates<const N: usize> {}
pub trait KalmanFilterNumObservations<const M: usize> {}

/// Traits with one reading of one buffer.
macro_rules! readings {
    ($($name:ident: $size:ident, $kind:ident: $bound:ident, $method:ident ($($lent:tt)*);)*) => { $(
        pub trait $name<const $size: usize, T> {
            type $kind: $bound<$size, T>;
            fn $method(self: $($lent)* Self) -> $($lent)* Self::$kind;
        }
    )* };
}

readings! {
    KalmanFilterStateVector: N, StateVector: StateVector, state_vector (&);
    KalmanFilterStateVectorMut: N, StateVectorMut: StateVectorMut, state_vector_mut (&mut);
    KalmanFilterEstimateCovariance: N, EstimateCovarianceMatrix: EstimateCovarianceMatrix, estimate_covariance (&);
    KalmanFilterEstimateCovarianceMut: N, EstimateCovarianceMatrixMut: EstimateCovarianceMatrix, estimate_covariance_mut (&mut);
    KalmanFilterDirectProcessNoiseCovariance: N, ProcessNoiseCovarianceMatrix: DirectProcessNoiseCovarianceMatrix, direct_process_noise (&);
    KalmanFilterDirectProcessNoiseMut: N, ProcessNoiseCovarianceMatrixMut: DirectProcessNoiseCovarianceMatrixMut, direct_process_noise_mut (&mut);
    KalmanFilterMeasurementVector: M, MeasurementVector: MeasurementVector, measurement_vector (&);
    KalmanFilterObservationVectorMut: M, MeasurementVectorMut: MeasurementVectorMut, measurement_vector_mut (&mut);
    KalmanFilterMeasurementNoiseCovariance: M, MeasurementNoiseCovarianceMatrix: MeasurementNoiseCovarianceMatrix, measurement_noise_covariance (&);
    KalmanFilterMeasurementNoiseCovarianceMut: M, MeasurementNoiseCovarianceMatrixMut: MeasurementNoiseCovarianceMatrix, measurement_noise_covariance_mut (&mut);
}

pub trait KalmanFilterUnscentedParams<T> {
    fn alpha(&self) -> T;
    fn beta(&self) -> T;
    fn kappa(&self) -> T;
    fn lambda(&self, n: usize) -> T;
}

pub trait KalmanFilterUnscentedParamsMut<T> {
    fn set_alpha(&mut self, v: T);
    fn set_beta(&mut self, v: T);
    fn set_kappa(&mut self, v: T);
    fn set_state_residual(&mut self, fix: fn(&mut [T]));
}

pub trait KalmanFilterSigmaPointPredict<const N: usize, T> {
    type NextStateVector;
    fn predict_sigma_point<F: FnMut(&mut Self::NextStateVector)>(&mut self, state_transition: F);
}

pub trait KalmanFilterSigmaPointCorrect<const N: usize, const COUNT: usize, T> {
    type SigmaPropagated;
    fn correct_sigma_point_with<M, F, R, const OBS: usize>(&mut self, measurement: &mut M, observation: F, fix: R)
    where
        M: KalmanFilterUnscentedObservationCorrectFilter<N, OBS, COUNT, T>,
        F: FnMut(&Self::SigmaPropagated, &mut M::ObservedSigmaPoints),
        R: FnMut(&mut [T]);
}

pub trait KalmanFilterUnscentedObservationCorrectFilter<const N: usize, const M: usize, const COUNT: usize, T> {
    type ObservedSigmaPoints;
    #[allow(clippy::too_many_arguments, non_snake_case)]
    fn correct_with_observed_residuals<X, P, SP, F, W, NX, NZ>(
        &mut self,
        x: &mut X,
        P: &mut P,
        sigma_propagated: &SP,
        weights: &W,
        lambda: T,
        observation: F,
        fix_state: NX,
        fix_measurement: NZ,
    ) where
        X: StateVectorMut<N, T>,
        P: EstimateCovarianceMatrix<N, T>,
        SP: AsMatrix<N, COUNT, T>,
        W: AsMatrix<COUNT, 1, T>,
        F: FnMut(&SP, &mut Self::ObservedSigmaPoints),
        NX: FnMut(&mut [T]),
        NZ: FnMut(&mut [T]);
}
