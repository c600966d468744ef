//! The crate's root has the original's signatures: each as the function that a user of the original calls.

use fugnadri::modulation::*;
use fugnadri::*;
use std::sync::Arc;

type Process<T> = fn(&mut T, f64, f64) -> f64;

fn reader<K: Kernel>() {
    let _: fn(usize, usize, K) -> VariableDelay<K> = VariableDelay::new;
    let _: Process<VariableDelay<K>> = VariableDelay::process_sample;
    let _: fn(&mut VariableDelay<K>) = VariableDelay::reset;
    let _: fn(&K, &SliceSource<'static>, f64) -> f64 = K::sample;
    let _: fn(&K) -> &'static str = K::name;
}

fn reader_f32<K: KernelF32, S: SampleSourceF32>() {
    let _: fn(usize, usize, K) -> VariableDelayF32<K> = VariableDelayF32::new;
    let _: fn(&mut VariableDelayF32<K>, f32, f64) -> f32 = VariableDelayF32::process_sample;
    let _: fn(&mut VariableDelayF32<K>) = VariableDelayF32::reset;
    let _: fn(&K, &S, f64) -> f32 = K::sample_f32;
}

fn oversampled<K: Kernel>() {
    let _: fn(usize, usize, usize, K) -> OversampledVariableDelay<K, 4> = OversampledVariableDelay::new;
    let _: Process<OversampledVariableDelay<K, 4>> = OversampledVariableDelay::process_sample;
    let _: fn(&OversampledVariableDelay<K, 4>) -> f64 = OversampledVariableDelay::latency_samples;
    let _: fn(&mut OversampledVariableDelay<K, 4>) = OversampledVariableDelay::reset;
    let _: fn(usize, usize, K) -> CascadedOversampledVariableDelay4x<K> = CascadedOversampledVariableDelay4x::new;
    let _: Process<CascadedOversampledVariableDelay4x<K>> = CascadedOversampledVariableDelay4x::process_sample;
    let _: fn(&CascadedOversampledVariableDelay4x<K>) -> f64 = CascadedOversampledVariableDelay4x::latency_samples;
    let _: fn(&mut CascadedOversampledVariableDelay4x<K>) = CascadedOversampledVariableDelay4x::reset;
}

struct Silence;

impl SampleSourceF32 for Silence {
    fn at_f32(&self, _: i64) -> f32 {
        0.0
    }
}

#[test]
fn readers_and_tables() {
    reader::<CubicFarrow>();
    reader::<Lagrange<6>>();
    reader::<Farrow8>();
    reader::<WindowedSinc>();
    oversampled::<CubicFarrow>();
    oversampled::<WindowedSinc>();
    reader_f32::<WindowedSincF32, Silence>();
    let _: fn(usize, usize, f64, f64) -> WindowedSinc = WindowedSinc::new;
    let _: fn(usize, usize, f64, f64, f64) -> WindowedSinc = WindowedSinc::for_max_rate;
    let _: [fn(&WindowedSinc) -> usize; 2] = [WindowedSinc::taps, WindowedSinc::phases];
    let _: fn(&WindowedSinc) -> f64 = WindowedSinc::cutoff;
    let _: fn(usize, usize, f64, f64) -> WindowedSincF32 = WindowedSincF32::new;
    let _: fn(usize, usize, f64, f64, f64) -> WindowedSincF32 = WindowedSincF32::for_max_rate;
    let _: (CubicFarrow, Lagrange<2>, Farrow8) = Default::default();
}

#[test]
fn qualities() {
    type Quality = QualityVariableDelayF32;
    let _: fn(f64) -> SincBankF32 = SincBankF32::for_max_rate;
    let _: fn(usize, usize, Arc<SincBankF32>, QualityMode, u32) -> Quality = Quality::new;
    let _: fn(&mut Quality, f32, f64, QualityMode) -> f32 = Quality::process_sample;
    let _: fn(&mut Quality, f32, f64, QualityMode, f64) -> f32 = Quality::process_sample_rate_aware;
    let _: fn(&mut Quality) = Quality::reset;
    assert_eq!(QualityMode::default(), QualityMode::Hq);
}

#[test]
fn modulation() {
    let _: fn(f64, u64) -> ModulationEngine = ModulationEngine::new;
    let _: fn(&mut ModulationEngine, f64) = ModulationEngine::set_sample_rate;
    let _: fn(&mut ModulationEngine, u64) = ModulationEngine::set_seed;
    let _: fn(&mut ModulationEngine) = ModulationEngine::reset;
    let _: fn(&mut ModulationEngine, ModulationParams) -> StereoDelayOffset = ModulationEngine::next;
    let _: fn(f64, f64, f64) -> f64 = maximum_delay_excursion_samples;
    let _: fn(&[f64]) -> f64 = maximum_rate_delta;
    let _: fn(f64, f64) -> f64 = shape_primitive;
    assert_eq!(MAX_SHAPE_PRIMITIVE, 7.0 / 6.0);
}
