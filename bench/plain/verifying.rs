//! Times `verify` of each program that it is given, for devices of 64 sectors: prints its file, the microseconds of the
//! best time, and the answer. Each is verified for a twentieth of a second, and at least 30 times within two.

use std::time::{Duration, Instant};

fn main() {
    for path in std::env::args().skip(1) {
        let bytes = std::fs::read(&path).expect("a program's file");
        let Ok(program) = bpf_isa::codec::decode(shim::Global, &bytes) else {
            println!("{path}\t0\tno program");
            continue;
        };
        let (mut best, mut answer) = (Duration::MAX, String::new());
        let (begun, mut times) = (Instant::now(), 0);
        while begun.elapsed() < Duration::from_millis(50) || times < 30 && begun.elapsed() < Duration::from_secs(2) {
            let before = Instant::now();
            let verified = verifier::verify(shim::Global, &program, 64);
            best = best.min(before.elapsed());
            times += 1;
            if times == 1 {
                answer = match verified {
                    Ok(accepted) => format!("budget {}", accepted.budget()),
                    Err(fault) => format!("refused {} at {}", fault.code.number(), fault.slot),
                };
            }
        }
        println!("{path}\t{:.3}\t{answer}", best.as_secs_f64() * 1e6);
    }
}
