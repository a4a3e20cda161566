//! A rough figure: microseconds a compliance call on everyday pairs and at the limits.

use reasoner::random::everyday::{case, Answer};
use reasoner::random::{limits, Case};
use reasoner::{compliance, model_check, FULL_WORK};
use std::hint::black_box;
use std::time::Instant;

/// The mean of many calls over several cases, in microseconds.
fn mean(calls: u32, cases: &[Case], mut call: impl FnMut(&Case)) -> f64 {
    for case in cases {
        call(case);
    }
    let start = Instant::now();
    for _ in 0..calls {
        for case in cases {
            call(case);
        }
    }
    start.elapsed().as_secs_f64() * 1e6 / f64::from(calls) / cases.len() as f64
}

fn main() {
    for answer in [Answer::Compliant, Answer::Outside] {
        let cases: Vec<Case> = (0..50).map(|seed| case(seed, answer)).collect();
        let (mut work, mut out) = ([0; FULL_WORK], [0; 1_000]);
        let micros = mean(400, &cases, |case| {
            black_box(compliance(&case.v, &case.p, &case.q, &mut work, &mut out));
        });
        println!("everyday, {answer:?}: {micros:.1} microseconds a call");
    }
    let mut out = vec![0; 700_005];
    let mut work = vec![0; FULL_WORK];
    for (name, case) in limits::cases() {
        let start = Instant::now();
        black_box(compliance(&case.v, &case.p, &case.q, &mut work, &mut out));
        let compliance = start.elapsed().as_secs_f64() * 1e6;
        let start = Instant::now();
        black_box(model_check(&case.v, &case.p, &case.q, &case.m, &mut work));
        let check = start.elapsed().as_secs_f64() * 1e6;
        println!("{name}: compliance {compliance:.0}, model check {check:.0} microseconds");
    }
}
