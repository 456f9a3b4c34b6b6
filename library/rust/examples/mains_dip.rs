//! A mains dip, as an inverter under test sees it: the schedule of examples/mains-dip.txt, from Rust. First in blocks of 16
//! samples, then all of it in one block of 480, which the second edition has room for.
use crackledray::{AudioParam, AutomationRate, Edition, Error};

fn schedule(p: &mut AudioParam) -> Result<(), Error> {
    p.set_value_at_time(230.0, 0.0)?;
    p.linear_ramp_to_value_at_time(230.0, 0.05)?;
    p.linear_ramp_to_value_at_time(92.0, 0.08)?;
    p.linear_ramp_to_value_at_time(92.0, 0.15)?;
    p.linear_ramp_to_value_at_time(161.0, 0.19)?;
    p.set_target_at_time(230.0, 0.19, 0.03)?;
    p.set_value_curve_at_time(&[230.0, 236.0, 230.0, 224.0, 230.0], 0.35, 0.08)
}

/// A block, of which every so many samples are printed.
fn play(
    p: &mut AudioParam,
    time: f64,
    period: f64,
    count: usize,
    every: usize,
) -> Result<(), Error> {
    let mut output = vec![0.0; count];
    let block = p.process(time, period, count, &[], &mut output)?;
    print!("{time:.2} s, {count} samples, {} steps:", block.steps);
    for sample in output.iter().step_by(every) {
        print!(" {sample:.3}");
    }
    println!();
    Ok(())
}

fn in_three() -> Result<(), Error> {
    let mut p = AudioParam::new(0.0, 230.0, 400.0, AutomationRate::A)?;
    schedule(&mut p)?;
    [0.0, 0.16, 0.32].into_iter().try_for_each(|time| play(&mut p, time, 0.01, 16, 1))
}

fn at_once() -> Result<(), Error> {
    let mut p = AudioParam::with_edition(0.0, 230.0, 400.0, AutomationRate::A, Edition::Second)?;
    schedule(&mut p)?;
    play(&mut p, 0.0, 0.001, 480, 30)
}

fn main() -> Result<(), Error> {
    in_three()?;
    at_once()
}
