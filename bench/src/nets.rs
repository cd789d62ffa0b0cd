//! The nets that are timed.
use crate::baseline::{Net, MOST_TRANSITIONS};

/// A net held as a list: place, label and targets of each transition.
pub struct Listed {
    pub places: usize,
    pub count: usize,
    rows: [[u8; 6]; MOST_TRANSITIONS],
}

impl Listed {
    fn new(places: usize, transitions: &[(usize, u8, Vec<usize>)]) -> Listed {
        let mut rows = [[255; 6]; MOST_TRANSITIONS];
        for (row, (place, label, targets)) in rows.iter_mut().zip(transitions) {
            row[0] = *place as u8;
            row[1] = *label;
            for (j, target) in targets.iter().enumerate() {
                row[2 + j] = *target as u8;
            }
        }
        Listed { places, count: transitions.len(), rows }
    }

    pub fn bytes(&self) -> Vec<u8> {
        self.rows[..self.count].concat()
    }
}

impl Net for Listed {
    fn places(&self) -> usize {
        self.places
    }
    fn transitions(&self) -> usize {
        self.count
    }
    fn place(&self, t: usize) -> usize {
        if t < self.count { self.rows[t][0] as usize } else { 0 }
    }
    fn label(&self, t: usize) -> u8 {
        if t < self.count { self.rows[t][1] } else { 0 }
    }
    fn total(&self, t: usize) -> u8 {
        if t < self.count { self.rows[t][2..].iter().filter(|&&x| x != 255).count() as u8 } else { 0 }
    }
    fn tokens(&self, t: usize, p: usize) -> u8 {
        if t < self.count && p < self.places {
            self.rows[t][2..].iter().filter(|&&x| x as usize == p).count() as u8
        } else {
            0
        }
    }
}

pub struct Ring {
    pub size: usize,
    pub label: u8,
}

impl Net for Ring {
    fn places(&self) -> usize {
        self.size
    }
    fn transitions(&self) -> usize {
        self.size
    }
    fn place(&self, t: usize) -> usize {
        if t < self.size { t } else { 0 }
    }
    fn label(&self, t: usize) -> u8 {
        if t < self.size { self.label } else { 0 }
    }
    fn total(&self, t: usize) -> u8 {
        (t < self.size) as u8
    }
    fn tokens(&self, t: usize, p: usize) -> u8 {
        (t < self.size && p == (t + 1) % self.size) as u8
    }
}

/// A small generator of numbers, the same in every run.
struct Dice(u64);

impl Dice {
    fn below(&mut self, n: usize) -> usize {
        self.0 = self.0.wrapping_mul(6364136223846793005).wrapping_add(1442695040888963407);
        (self.0 >> 33) as usize % n
    }
}

/// Each place goes on to the next; the last is stuck.
pub fn chain() -> Listed {
    let moves: Vec<_> = (0..127).map(|p| (p, 0, vec![p + 1])).collect();
    Listed::new(128, &moves)
}

/// Eight transitions a place to the next one, with one to four tokens.
pub fn broad_chain() -> Listed {
    let moves: Vec<_> = (0..127 * 8).map(|i| (i / 8, (i % 8) as u8, vec![i / 8 + 1; 1 + i % 4])).collect();
    Listed::new(128, &moves)
}

pub fn random() -> Listed {
    let mut dice = Dice(1);
    let moves: Vec<_> = (0..1024)
        .map(|_| {
            let total = dice.below(5);
            (dice.below(128), dice.below(64) as u8, (0..total).map(|_| dice.below(128)).collect())
        })
        .collect();
    Listed::new(128, &moves)
}

/// Eight copies of a random net of 16 places; each token may go to any copy of its place.
pub fn copies() -> Listed {
    let mut dice = Dice(2);
    let base: Vec<(usize, u8, Vec<usize>)> = (0..128)
        .map(|_| {
            let total = dice.below(5);
            (dice.below(16), dice.below(3) as u8, (0..total).map(|_| dice.below(16)).collect())
        })
        .collect();
    let mut moves = Vec::new();
    for copy in 0..8 {
        for (place, label, targets) in &base {
            moves.push((place * 8 + copy, *label, targets.iter().map(|q| q * 8 + dice.below(8)).collect()));
        }
    }
    for i in (1..moves.len()).rev() {
        moves.swap(i, dice.below(i + 1));
    }
    Listed::new(128, &moves)
}
