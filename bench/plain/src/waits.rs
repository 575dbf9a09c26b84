//! How long one thing takes that makes the processor wait, in nanoseconds: `waits KIND`. A KIND is `first`, data that isn't in the
//! first cache but in the second; `last`, data that is in none; `branch`, a branch that was guessed wrong; or `page`, a page of
//! memory that is touched first, which the system hands out.
use std::hint::black_box;
use std::time::Instant;

const STEPS: usize = 20_000_000;
// The second cache of a processor has a megabyte or so, and the last one some tens.
const NEAR: usize = 256 << 10;
const FAR: usize = 512 << 20;
const LINE: usize = 64;
const PAGE: usize = 4_096;

/// Numbers that look drawn by chance (Marsaglia's xorshift).
struct Chance(u64);

impl Chance {
    fn next(&mut self) -> u64 {
        self.0 ^= self.0 << 13;
        self.0 ^= self.0 >> 7;
        self.0 ^= self.0 << 17;
        self.0
    }
}

/// A ring through all lines of so many bytes, in an order drawn by chance: each place holds the next one.
fn ring(bytes: usize) -> Vec<usize> {
    let (stride, lines) = (LINE / size_of::<usize>(), bytes / LINE);
    let mut order: Vec<usize> = (0..lines).collect();
    let mut chance = Chance(2_026);
    for last in (1..lines).rev() {
        order.swap(last, chance.next() as usize % (last + 1));
    }
    let mut places = vec![0; lines * stride];
    for (at, line) in order.iter().enumerate() {
        places[line * stride] = order[(at + 1) % lines] * stride;
    }
    places
}

/// How long a step takes through a ring, of which each waits for the one before.
fn chased(bytes: usize) -> f64 {
    let places = ring(bytes);
    let mut at = 0;
    for _ in 0..bytes / LINE {
        at = places[at];
    }
    let begun = Instant::now();
    for _ in 0..STEPS {
        at = places[at];
    }
    let taken = begun.elapsed();
    black_box(at);
    taken.as_nanos() as f64 / STEPS as f64
}

/// How long a loop takes whose branch goes by the lowest bit of such numbers.
fn branched(bits: &[bool]) -> f64 {
    let begun = Instant::now();
    let (mut one, mut other) = (0u64, 1u64);
    for _ in 0..STEPS / bits.len() {
        for &bit in bits {
            if bit {
                one = black_box(one + 1);
            } else {
                other = black_box(other ^ one);
            }
        }
    }
    let taken = begun.elapsed();
    black_box((one, other));
    taken.as_nanos() as f64 / STEPS as f64
}

/// What a branch that is guessed wrong takes: half of them are, where they go by chance.
fn guessed() -> f64 {
    let mut chance = Chance(2_026);
    let drawn: Vec<bool> = (0..1 << 20).map(|_| chance.next() >> 40 & 1 == 1).collect();
    let even: Vec<bool> = (0..1 << 20).map(|at| at & 1 == 1).collect();
    2.0 * (branched(&drawn) - branched(&even))
}

/// How long it takes to touch a page first.
fn touched() -> f64 {
    let begun = Instant::now();
    let mut room: Vec<u8> = Vec::with_capacity(FAR);
    for at in (0..FAR).step_by(PAGE) {
        unsafe { room.as_mut_ptr().add(at).write_volatile(1) };
    }
    begun.elapsed().as_nanos() as f64 / (FAR / PAGE) as f64
}

fn main() {
    let found = match std::env::args().nth(1).as_deref() {
        Some("first") => chased(NEAR),
        Some("last") => chased(FAR),
        Some("branch") => guessed(),
        Some("page") => touched(),
        _ => panic!("usage: waits first|last|branch|page"),
    };
    println!("{found:.2}");
}
