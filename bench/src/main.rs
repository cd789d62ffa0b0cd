//! Times the classes call beside a hand-written baseline, net by net, and prints the ratio.
//! Each time is the best of many runs; both must find the same classes and rounds.
mod baseline;
mod nets;

use baseline::Net;
use std::hint::black_box;
use std::time::Instant;

extern "C" {
    fn bench_listed(places: usize, bytes: *const u8, length: usize, list: *mut u8, room: usize, turns: usize) -> usize;
    fn bench_ring(size: usize, label: usize, list: *mut u8, room: usize, turns: usize) -> usize;
}

const RUNS: usize = 60;
const BAR: f64 = 1.5;

type List = [u8; 128];

/// The best time of one turn in nanoseconds, and what was found.
fn time(turns: usize, mut run: impl FnMut(&mut List, usize) -> usize) -> (f64, usize, List) {
    let mut list = [0; 128];
    let mut best = f64::MAX;
    let mut rounds = 0;
    for _ in 0..RUNS {
        let start = Instant::now();
        rounds = run(&mut list, turns);
        best = best.min(start.elapsed().as_nanos() as f64 / turns as f64);
    }
    (best, rounds, list)
}

fn repeat<N: Net>(net: &N, list: &mut List, turns: usize) -> usize {
    let mut rounds = 0;
    for _ in 0..turns {
        rounds = baseline::classes(black_box(net), black_box(list));
    }
    rounds
}

fn compare(name: &str, ours: (f64, usize, List), theirs: (f64, usize, List)) -> bool {
    assert_eq!((ours.1, ours.2), (theirs.1, theirs.2), "{name}: the answers differ");
    let ratio = ours.0 / theirs.0;
    let count = (0..128).filter(|&p| ours.2[p] as usize == p).count();
    println!("{name:14} {:>9.1} us {:>9.1} us  ratio {ratio:.2}  rounds {} classes {count}", ours.0 / 1e3, theirs.0 / 1e3, ours.1);
    ratio <= BAR
}

fn main() {
    println!("{:14} {:>12} {:>12}", "", "library", "baseline");
    let mut within = true;
    let listed = [
        ("chain", nets::chain(), 20),
        ("broad chain", nets::broad_chain(), 10),
        ("random", nets::random(), 50),
        ("copies", nets::copies(), 50),
    ];
    for (name, net, turns) in &listed {
        let bytes = net.bytes();
        let ours = time(*turns, |list, turns| unsafe {
            bench_listed(net.places, bytes.as_ptr(), bytes.len(), list.as_mut_ptr(), list.len(), turns)
        });
        let theirs = time(*turns, |list, turns| repeat(net, list, turns));
        within &= compare(name, ours, theirs);
    }
    let ring = nets::Ring { size: 128, label: 0 };
    let ours = time(200, |list, turns| unsafe { bench_ring(ring.size, ring.label as usize, list.as_mut_ptr(), list.len(), turns) });
    let theirs = time(200, |list, turns| repeat(&ring, list, turns));
    within &= compare("ring", ours, theirs);
    if !within {
        println!("above the bar of {BAR} times the baseline");
        std::process::exit(1);
    }
}
