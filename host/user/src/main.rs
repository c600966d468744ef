//! Written for the original: a second of a tone through a wandering delay, in each quality, a tone through the oversampled
//! readers, and a few readings of a slice. Nothing here names Fugnadri.

use std::sync::Arc;
use wow_dsp::modulation::{maximum_delay_excursion_samples, maximum_rate_delta, ModulationEngine, ModulationParams};
use wow_dsp::{
    CascadedOversampledVariableDelay4x, CubicFarrow, Farrow8, Kernel, Lagrange, OversampledVariableDelay, QualityMode,
    QualityVariableDelayF32, SampleSource, SincBankF32, SliceSource, VariableDelay, WindowedSinc,
};

const SAMPLE_RATE: f64 = 48_000.0;

struct Ramp;

impl SampleSource for Ramp {
    fn at(&self, index: i64) -> f64 {
        index.max(0) as f64
    }
}

fn read<K: Kernel>(kernel: K) {
    let position = 20.25;
    let slice: Vec<f64> = (0..48).map(|i| f64::from(i * i % 7)).collect();
    println!(
        "{}: {:.6} {:.6}",
        kernel.name(),
        kernel.sample(&SliceSource(&slice), position),
        kernel.sample(&Ramp, position)
    );
    let mut reader = VariableDelay::new(64, 16, kernel);
    let mut last = 0.0;
    for &x in &slice {
        last = reader.process_sample(x, 26.75);
    }
    println!(
        "  behind the newest sample: {last:.6}; of a sample that is no number: {:.1}",
        reader.process_sample(f64::NAN, 1.0)
    );
}

/// A tone through each oversampled reader, twice, with a reset between.
fn oversampled() {
    let mut two = OversampledVariableDelay::<_, 2>::new(64, 16, 65, CubicFarrow);
    let mut four = OversampledVariableDelay::<_, 4>::new(64, 32, 33, WindowedSinc::for_max_rate(32, 64, 1.01, 0.95, 10.0));
    let mut cascade = CascadedOversampledVariableDelay4x::new(64, 16, Farrow8);
    println!(
        "oversampled: late by {}, {} and {}",
        two.latency_samples(),
        four.latency_samples(),
        cascade.latency_samples()
    );
    for round in 0..2 {
        let mut energy = [0.0; 3];
        for n in 0..480 {
            let (tone, delay) = ((f64::from(n) * 0.05).sin(), 40.0 + (f64::from(n) * 0.002).cos());
            energy[0] += two.process_sample(tone, delay).powi(2);
            energy[1] += four.process_sample(tone, delay).powi(2);
            energy[2] += cascade.process_sample(tone, delay).powi(2);
        }
        println!("  round {round}: {:.6} {:.6} {:.6}", energy[0], energy[1], energy[2]);
        two.reset();
        four.reset();
        cascade.reset();
    }
}

fn main() {
    read(CubicFarrow);
    read(Lagrange::<6>);
    read(Farrow8);
    read(WindowedSinc::for_max_rate(32, 512, 1.01, 0.95, 10.0));
    oversampled();

    let params = ModulationParams {
        wow_depth_cents: 12.0,
        flutter_depth_cents: 3.0,
        drift_amount: 0.5,
        stereo_amount: 0.3,
        ..Default::default()
    };
    let excursion = maximum_delay_excursion_samples(12.0, 0.55, SAMPLE_RATE)
        + maximum_delay_excursion_samples(3.0, 12.0, SAMPLE_RATE);
    let rate = 1.0 + maximum_rate_delta(&[12.0, 3.0]);
    let base = (excursion + 66.0).ceil();
    println!("base delay {base}, greatest rate {rate:.9}");
    let bank = Arc::new(SincBankF32::for_max_rate(rate));
    for quality in [QualityMode::Draft, QualityMode::Normal, QualityMode::Hq, QualityMode::Ultra] {
        let mut engine = ModulationEngine::new(SAMPLE_RATE, 1);
        let mut reader =
            QualityVariableDelayF32::new((base + excursion) as usize, 64, bank.clone(), QualityMode::Draft, 480);
        let mut energy = 0.0;
        for n in 0..48_000 {
            let tone = (f64::from(n) * 0.05).sin() as f32 * 0.5;
            let offset = engine.next(params);
            let y = reader.process_sample(tone, base + offset.left, quality);
            energy += f64::from(y) * f64::from(y);
        }
        println!("{quality:?}: {energy:.3}");
    }
}
