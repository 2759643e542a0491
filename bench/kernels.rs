//! The sector kernels in plain Rust, beside which those of the crate `lanes` are timed (README.md).
//! The pairs of sectors, the passes and the way of timing are those of `crate/src/kernels.rt.txt`.
use std::hint::black_box;
use std::time::Instant;

type Sector = [u8; 512];

const PAIRS: usize = 16;
const PASSES: u32 = 80_000;
const ROUNDS: u32 = 5;

fn same_by_eq(left: &Sector, right: &Sector) -> bool {
    left == right
}

fn same_by_or(left: &Sector, right: &Sector) -> bool {
    left.iter().zip(right).fold(0, |bits, (a, b)| bits | (a ^ b)) == 0
}

fn is_zero_by_or(sector: &Sector) -> bool {
    sector.iter().fold(0, |bits, byte| bits | byte) == 0
}

fn is_zero_by_all(sector: &Sector) -> bool {
    sector.iter().all(|byte| *byte == 0)
}

fn mix_by_words(sector: &Sector) -> u64 {
    let word = |place: usize| u64::from_le_bytes(sector[8 * place..8 * place + 8].try_into().unwrap());
    (0..8).fold(0u64, |mixed, column| {
        let sum = (0..8).fold(0u64, |sum, row| sum.wrapping_mul(1_000_003).wrapping_add(word(8 * row + column)));
        mixed.wrapping_mul(16_777_619).wrapping_add(sum)
    })
}

#[inline(never)]
fn splice_by_copy(new: &Sector, old: &Sector, pieces: u8) -> Sector {
    let mut spliced = *old;
    let head = 64 * usize::from(pieces);
    spliced[..head].copy_from_slice(&new[..head]);
    spliced
}

#[inline(never)]
fn pass_all(pairs: &[[Sector; 2]], form: impl Fn(&Sector, &Sector, u8) -> u64) -> u64 {
    let mut sum = 0u64;
    for pass in 0..PASSES {
        let pieces = (pass % 9) as u8;
        // the compiler must not see that each pass gives the same
        for pair in black_box(pairs) {
            sum = sum.wrapping_add(form(&pair[0], &pair[1], pieces));
        }
    }
    sum
}

/// Prints a form's best time of a sector.
fn time(name: &str, pairs: &[[Sector; 2]], form: impl Fn(&Sector, &Sector, u8) -> u64) {
    let mut best = f64::MAX;
    for _ in 0..ROUNDS {
        let start = Instant::now();
        black_box(pass_all(pairs, &form));
        best = best.min(start.elapsed().as_secs_f64());
    }
    let count = pairs.len() as f64 * f64::from(PASSES);
    println!("{name:16} {:9.1} ns", best * 1e9 / count);
}

fn main() {
    let pairs = vec![[[0u8; 512]; 2]; PAIRS];
    time("same, ==", &pairs, |other, sector, _| same_by_eq(other, sector).into());
    time("same, or", &pairs, |other, sector, _| same_by_or(other, sector).into());
    time("is_zero, all", &pairs, |_, sector, _| is_zero_by_all(sector).into());
    time("is_zero, or", &pairs, |_, sector, _| is_zero_by_or(sector).into());
    time("mix, words", &pairs, |_, sector, _| mix_by_words(sector));
    time("splice, copy", &pairs, |other, sector, pieces| splice_by_copy(sector, other, pieces)[200].into());
}
