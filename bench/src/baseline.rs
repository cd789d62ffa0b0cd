//! The hand-written partition refinement that the library is measured against.
//! It asks its net through a trait with the same six questions, sorts the signatures of each place, and allocates nothing.

pub const MOST_PLACES: usize = 128;
pub const MOST_TRANSITIONS: usize = 1024;
const WIDTH: usize = 4;
const NO_TARGET: u8 = 255;

pub trait Net {
    fn places(&self) -> usize;
    fn transitions(&self) -> usize;
    fn place(&self, t: usize) -> usize;
    fn label(&self, t: usize) -> u8;
    fn total(&self, t: usize) -> u8;
    fn tokens(&self, t: usize, p: usize) -> u8;
}

#[derive(Clone, Copy)]
struct Move {
    place: u8,
    label: u8,
    targets: [u8; WIDTH],
}

const NO_MOVE: Move = Move { place: 0, label: 0, targets: [NO_TARGET; WIDTH] };

fn ask<N: Net>(net: &N, t: usize) -> Move {
    let mut found = NO_MOVE;
    found.place = net.place(t) as u8;
    found.label = net.label(t);
    let total = net.total(t) as usize;
    let mut used = 0;
    let mut p = 0;
    while used < total {
        for _ in 0..net.tokens(t, p) {
            found.targets[used] = p as u8;
            used += 1;
        }
        p += 1;
    }
    found
}

/// The moves ordered by place, and where those of each place begin.
struct Moves {
    moves: [Move; MOST_TRANSITIONS],
    starts: [usize; MOST_PLACES + 2],
}

fn collect<N: Net>(net: &N) -> Moves {
    let count = net.transitions();
    let mut asked = [NO_MOVE; MOST_TRANSITIONS];
    let mut starts = [0; MOST_PLACES + 2];
    for t in 0..count {
        asked[t] = ask(net, t);
        starts[asked[t].place as usize + 1] += 1;
    }
    for p in 0..net.places() {
        starts[p + 1] += starts[p];
    }
    let mut moves = [NO_MOVE; MOST_TRANSITIONS];
    let mut next = starts;
    for one in &asked[..count] {
        moves[next[one.place as usize]] = *one;
        next[one.place as usize] += 1;
    }
    Moves { moves, starts }
}

/// Label and sorted classes of the targets in one number.
fn signature(one: &Move, table: &[u8; 256]) -> u64 {
    let mut classes = one.targets.map(|x| table[x as usize]);
    classes.sort_unstable();
    (one.label as u64) << 32 | u32::from_be_bytes(classes) as u64
}

/// Sorts the signatures and drops repeats; answers how many are left.
fn settle(signatures: &mut [u64]) -> usize {
    signatures.sort_unstable();
    let mut kept = 0;
    for i in 0..signatures.len() {
        if kept == 0 || signatures[i] != signatures[kept - 1] {
            signatures[kept] = signatures[i];
            kept += 1;
        }
    }
    kept
}

pub fn classes<N: Net>(net: &N, list: &mut [u8]) -> usize {
    let n = net.places();
    let all = collect(net);
    let starts = &all.starts;
    // a target that is none has a class of its own
    let mut table = [0u8; 256];
    table[NO_TARGET as usize] = NO_TARGET;
    let mut signatures = [0u64; MOST_TRANSITIONS];
    let mut lengths = [0; MOST_PLACES];
    let mut rounds = 0;
    loop {
        for p in 0..n {
            for i in starts[p]..starts[p + 1] {
                signatures[i] = signature(&all.moves[i], &table);
            }
            lengths[p] = settle(&mut signatures[starts[p]..starts[p + 1]]);
        }
        let of = |p: usize| &signatures[starts[p]..starts[p] + lengths[p]];
        let mut next = [0u8; 256];
        next[NO_TARGET as usize] = NO_TARGET;
        for p in 0..n {
            let leads = |q: usize| next[q] as usize == q && table[q] == table[p] && of(q) == of(p);
            next[p] = (table[p] as usize..p).find(|&q| leads(q)).unwrap_or(p) as u8;
        }
        if next[..n] == table[..n] {
            list[..n].copy_from_slice(&table[..n]);
            return rounds;
        }
        table = next;
        rounds += 1;
    }
}
