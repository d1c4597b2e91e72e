//! How long a check of 64 machines with 32 regions each takes, of each kind, all of them real and apart: at most 20 ms.
use compare::config_plain::{bytes, Config, Machine, Region};
use compare::ours;
use std::process::exit;
use std::time::Instant;

const PAGES: u64 = 3;
const MOST: f64 = 20.0;

fn full(kind: u8) -> Config {
    let at = |slot: u64| 4096 * PAGES * slot;
    let regions =
        |m: u64| (0..32).map(|i| Region { guest: at(i), host: at(32 * m + i), pages: PAGES, kind }).collect();
    let machines = (0..64).map(|m| Machine { number: m as u16, regions: regions(m) }).collect();
    Config { machines, pool: (at(2048), 1) }
}

fn main() {
    let mut slow = false;
    for kind in 0..3 {
        let bytes = bytes(&full(kind));
        let mut best = f64::MAX;
        for _ in 0..20 {
            let began = Instant::now();
            assert!(ours::config_check(&bytes) == [0, 64, 0, 0, 0]);
            best = best.min(began.elapsed().as_secs_f64() * 1e3);
        }
        println!("2048 regions of kind {kind}: {best:.1} ms");
        slow |= best > MOST;
    }
    exit(i32::from(slow));
}
