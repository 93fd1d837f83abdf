//! Times turns of a std Mutex, in the same steps as the program over the gate.
use std::env;
use std::hint::black_box;
use std::sync::Mutex;
use std::thread;
use std::time::Instant;

struct Sum {
    total: u64,
    turns: u64,
}

fn busy(rounds: u64, seed: u64) -> u64 {
    let mut x = seed | 1;
    for _ in 0..rounds {
        x ^= x << 13;
        x ^= x >> 7;
        x ^= x << 17;
    }
    x
}

/// How many rounds of work take a microsecond: the best of several tries, so that a busy machine
/// doesn't make the work too short.
fn calibrate() -> u64 {
    let rounds = 2_000_000;
    let mut best = u64::MAX;
    for seed in 0..20 {
        let start = Instant::now();
        black_box(busy(black_box(rounds), seed));
        best = best.min(start.elapsed().as_nanos() as u64);
    }
    rounds * 1000 / best
}

fn main() {
    let Some(per_us) = env::args().nth(1).and_then(|word| word.parse::<u64>().ok()) else {
        println!("{}", calibrate());
        return;
    };
    for micros in [1u64, 5] {
        for threads in [1u64, 4, 16] {
            let turns = 320_000 / micros / threads;
            let shared = Mutex::new(Sum { total: 0, turns: 0 });
            let start = Instant::now();
            thread::scope(|scope| {
                for _ in 0..threads {
                    scope.spawn(|| {
                        for _ in 0..turns {
                            let mut sum = shared.lock().unwrap();
                            sum.total = busy(per_us * micros, sum.total);
                            sum.turns += 1;
                        }
                    });
                }
            });
            let spent = start.elapsed().as_micros() as u64;
            let sum = shared.into_inner().unwrap();
            black_box(sum.total);
            println!("mutex {micros} {threads} {} {}", sum.turns, sum.turns * 1_000_000 / spent.max(1));
        }
    }
}
