//! The peer of the words' benchmark: the same loops over plain slices, in plain Rust.

use std::process::ExitCode;

const ROWS: usize = 1_000_000;

fn words(seed: i64) -> Vec<i64> {
    let mut word = seed;
    (0..ROWS)
        .map(|_| {
            word = word
                .wrapping_mul(6_364_136_223_846_793_005)
                .wrapping_add(1_442_695_040_888_963_407);
            word
        })
        .collect()
}

fn add(total: &mut [i64], words: &[i64]) {
    for (total, word) in total.iter_mut().zip(words) {
        *total = total.wrapping_add(*word);
    }
}

fn multiply(total: &mut [i64], words: &[i64]) {
    for (total, word) in total.iter_mut().zip(words) {
        *total = total.wrapping_mul(*word);
    }
}

/// The quotient rounded down, none for a divisor 0.
fn floor_div(word: i64, divisor: i64) -> Option<i64> {
    if divisor == 0 {
        return None;
    }
    let quotient = word.wrapping_div(divisor);
    let rest = word.wrapping_rem(divisor);
    if rest != 0 && (rest < 0) != (divisor < 0) {
        Some(quotient.wrapping_sub(1))
    } else {
        Some(quotient)
    }
}

fn add_quotients(total: &mut [i64], words: &[i64], divisor: i64) {
    for (total, word) in total.iter_mut().zip(words) {
        if let Some(quotient) = floor_div(*word, divisor) {
            *total = total.wrapping_add(quotient);
        }
    }
}

fn main() -> ExitCode {
    let args: Vec<String> = std::env::args().skip(1).collect();
    let [operation, rounds] = args.as_slice() else {
        return ExitCode::from(2);
    };
    let Ok(rounds) = rounds.parse::<u32>() else {
        return ExitCode::from(2);
    };
    let words_in = words(1);
    let mut total = words(2);
    for round in 0..rounds {
        match operation.as_str() {
            "add" => add(&mut total, &words_in),
            "multiply" => multiply(&mut total, &words_in),
            "floor_div" => add_quotients(&mut total, &words_in, i64::from(round) + 7),
            _ => return ExitCode::from(2),
        }
    }
    let sum = total.iter().fold(0i64, |sum, word| sum.wrapping_add(*word));
    println!("{sum}");
    ExitCode::SUCCESS
}
