//! Medians of repeated runs, the contestants taking turns so that all meet the same machine.

use crate::{Outcome, Task};
use std::hint::black_box;
use std::time::Duration;

/// A sample repeats a run until it takes about this long.
const SAMPLE: Duration = Duration::from_millis(2);

/// Processor time of this thread, so that other programs on the machine do not count. All contestants use one thread and wait for nothing.
fn now() -> Duration {
    #[repr(C)]
    struct Time {
        seconds: i64,
        nanoseconds: i64,
    }
    extern "C" {
        fn clock_gettime(clock: i32, time: *mut Time) -> i32;
    }
    const THREAD_CPU_TIME: i32 = 3;
    let mut time = Time { seconds: 0, nanoseconds: 0 };
    // SAFETY: the place is good for what a 64-bit Linux writes.
    let status = unsafe { clock_gettime(THREAD_CPU_TIME, &mut time) };
    assert_eq!(status, 0, "Linux has this clock");
    Duration::new(time.seconds as u64, time.nanoseconds as u32)
}

pub struct Figure {
    pub contestant: &'static str,
    pub seconds: f64,
}

pub struct Measured {
    pub task: &'static str,
    pub figures: Vec<Figure>,
}

impl Measured {
    pub fn seconds(&self, contestant: &str) -> Option<f64> {
        self.figures.iter().find(|figure| figure.contestant == contestant).map(|figure| figure.seconds)
    }
}

fn time(run: &mut dyn FnMut() -> Option<Outcome>, times: u32) -> f64 {
    let start = now();
    for _ in 0..times {
        black_box(run());
    }
    (now() - start).as_secs_f64() / f64::from(times)
}

pub fn median(mut samples: Vec<f64>) -> f64 {
    samples.sort_by(f64::total_cmp);
    samples[samples.len() / 2]
}

/// All contestants must agree before any is measured.
pub fn measure(mut task: Task, rounds: usize) -> Result<Measured, String> {
    task.agree()?;
    let times: Vec<u32> = task
        .contestants
        .iter_mut()
        .map(|contestant| {
            let once = time(&mut contestant.run, 3);
            (SAMPLE.as_secs_f64() / once).clamp(1.0, 100_000.0) as u32
        })
        .collect();
    let mut samples = vec![Vec::new(); task.contestants.len()];
    for _ in 0..rounds {
        for ((contestant, &times), samples) in task.contestants.iter_mut().zip(&times).zip(&mut samples) {
            samples.push(time(&mut contestant.run, times));
        }
    }
    let figures = task.contestants.iter().zip(samples).map(|(contestant, samples)| Figure { contestant: contestant.name, seconds: median(samples) });
    Ok(Measured { task: task.name, figures: figures.collect() })
}
