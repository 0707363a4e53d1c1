// The same loop as `bench fractions`, in plain Rust over the same algorithm.
use std::env;

mod frac;
use frac::Frac;

fn make(turn: u64, step: u64) -> Frac {
    let num = (turn.wrapping_mul(step) % 19) as i128 - 9;
    let den = (turn.wrapping_mul(step).wrapping_add(turn) % 12) as i128 + 1;
    Frac::new(num, den).unwrap_or(Frac::whole(1))
}

fn mix(sum: u64, value: Frac) -> u64 {
    let num = (value.num.unsigned_abs() & 0xffff_ffff) as u64;
    let den = (value.den & 0xffff_ffff) as u64;
    sum.wrapping_mul(31).wrapping_add(num).wrapping_mul(31).wrapping_add(den)
}

fn main() {
    let count = env::args().nth(1).and_then(|word| word.parse::<u64>().ok()).unwrap_or(1000);
    let mut sum = 0u64;
    for turn in 0..count {
        let (left, right) = (make(turn, 7), make(turn, 11));
        if let Some(value) = left.plus(right) {
            sum = mix(sum, value);
        }
        if let Some(value) = left.times(right) {
            sum = mix(sum, value);
        }
    }
    println!("{sum}");
}
