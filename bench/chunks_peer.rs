//! The peer of the benchmark of chunks: the same reductions, sums and changes of unit over plain slices, with
//! words of bits that tell which words are valid or none where all are, in plain Rust.

use std::process::ExitCode;

/// Words, and a bit for each that is set where it is valid.
struct Column {
    words: Vec<i64>,
    valid: Option<Vec<u64>>,
}

impl Column {
    /// A column where each row that the step divides is null, unless the step is 0.
    fn new(rows: usize, null_step: usize) -> Column {
        let mut word = 1i64;
        let words = (0..rows)
            .map(|_| {
                word = word
                    .wrapping_mul(6_364_136_223_846_793_005)
                    .wrapping_add(1_442_695_040_888_963_407);
                word >> 16
            })
            .collect();
        let valid = (null_step > 0).then(|| {
            let mut bits = vec![u64::MAX; rows.div_ceil(64)];
            for row in (0..rows).step_by(null_step) {
                bits[row / 64] &= !(1 << (row % 64));
            }
            bits
        });
        Column { words, valid }
    }

    /// Joins the valid words.
    fn fold(&self, start: i64, join: impl Fn(i64, i64) -> i64) -> i64 {
        let Some(valid) = &self.valid else {
            return self.words.iter().fold(start, |total, word| join(total, *word));
        };
        let mut total = start;
        for (words, bits) in self.words.chunks(64).zip(valid) {
            for (at, word) in words.iter().enumerate() {
                if (bits >> at) & 1 == 1 {
                    total = join(total, *word);
                }
            }
        }
        total
    }

    /// The sum of the column with itself, wrapped.
    fn add(&self) -> Column {
        let words = self.words.iter().zip(&self.words).map(|(x, y)| x.wrapping_add(*y)).collect();
        let valid = self.valid.as_ref().map(|bits| bits.iter().zip(bits).map(|(x, y)| x & y).collect());
        Column { words, valid }
    }

    /// Microseconds as milliseconds, rounded down.
    fn coarser(&self) -> Column {
        let words = self.words.iter().map(|word| word.div_euclid(1_000)).collect();
        Column { words, valid: self.valid.clone() }
    }

    /// Microseconds as nanoseconds, null where 64 bits don't hold them.
    fn finer(&self) -> Column {
        let mut words = Vec::with_capacity(self.words.len());
        let mut valid = Vec::with_capacity(self.words.len().div_ceil(64));
        for (at, part) in self.words.chunks(64).enumerate() {
            let mut fits = 0u64;
            for (bit, word) in part.iter().enumerate() {
                let (word, over) = word.overflowing_mul(1_000);
                words.push(word);
                fits |= u64::from(!over) << bit;
            }
            valid.push(self.valid.as_ref().map_or(fits, |bits| bits[at] & fits));
        }
        Column { words, valid: Some(valid) }
    }

    fn slot(&self, row: usize) -> i64 {
        let valid = self.valid.as_ref().map_or(true, |bits| (bits[row / 64] >> (row % 64)) & 1 == 1);
        if valid { self.words[row] } else { 0 }
    }

    /// The first and the last slot, 0 for a null one.
    fn ends(&self) -> i64 {
        self.slot(0).wrapping_mul(31).wrapping_add(self.slot(self.words.len() - 1))
    }

    fn answer(&self, call: &str) -> Option<i64> {
        match call {
            "sum" => Some(self.fold(0, i64::wrapping_add)),
            "product" => Some(self.fold(1, i64::wrapping_mul)),
            "min" => Some(self.fold(i64::MAX, i64::min)),
            "max" => Some(self.fold(i64::MIN, i64::max)),
            "add" => Some(self.add().ends()),
            "coarser" => Some(self.coarser().ends()),
            "finer" => Some(self.finer().ends()),
            _ => None,
        }
    }
}

fn main() -> ExitCode {
    let args: Vec<String> = std::env::args().skip(1).collect();
    let [call, null_step, rows, _, _, rounds] = args.as_slice() else {
        return ExitCode::from(2);
    };
    let numbers = (null_step.parse::<usize>(), rows.parse::<usize>(), rounds.parse::<u32>());
    let (Ok(null_step), Ok(rows), Ok(rounds)) = numbers else {
        return ExitCode::from(2);
    };
    let mut column = Column::new(rows, null_step);
    let mut total = 0i64;
    for round in 0..rounds {
        column.words[(round % 8) as usize + 1] = i64::from(round);
        let Some(answer) = column.answer(call) else {
            return ExitCode::from(2);
        };
        total = total.wrapping_mul(31).wrapping_add(answer);
    }
    println!("{total}");
    ExitCode::SUCCESS
}
