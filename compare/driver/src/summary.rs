//! What was compared, counted by call and answer, and printed as tables.

use crate::{
    case::{Call, CALLS},
    compare::Settled,
    faults::{faults_of, round_of},
    published::DIFFERENCES,
};

/// Answers run from 0, accepted, to 20.
const ANSWERS: usize = 21;

pub struct Summary {
    /// Agreements with the Rust and with document 01, and those with document 01 alone.
    with_rust: [[u64; ANSWERS]; CALLS.len()],
    alone: [[u64; ANSWERS]; CALLS.len()],
    by_difference: [u64; DIFFERENCES.len()],
    /// Of accepted calls: outputs with elements, those that are finite, those of them that are not the signal.
    outputs: [[u64; 3]; CALLS.len()],
    cases: [u64; CALLS.len()],
    pub differing: u64,
}

/// 1234567 as 1,234,567.
pub fn grouped(number: u64) -> String {
    let digits = number.to_string();
    let mut out = String::new();
    for (i, digit) in digits.chars().enumerate() {
        if i > 0 && (digits.len() - i) % 3 == 0 {
            out.push(',');
        }
        out.push(digit);
    }
    out
}

fn sum(counts: &[u64]) -> u64 {
    counts.iter().sum()
}

impl Summary {
    pub fn new() -> Self {
        Self {
            with_rust: [[0; ANSWERS]; CALLS.len()],
            alone: [[0; ANSWERS]; CALLS.len()],
            by_difference: [0; DIFFERENCES.len()],
            outputs: [[0; 3]; CALLS.len()],
            cases: [0; CALLS.len()],
            differing: 0,
        }
    }

    pub fn agreed(&mut self, call: Call, answer: u64, settled: Settled) {
        let (call, answer) = (call as usize, answer as usize);
        self.cases[call] += 1;
        match settled {
            None => self.with_rust[call][answer] += 1,
            Some(difference) => {
                self.alone[call][answer] += 1;
                self.by_difference[difference as usize] += 1;
            }
        }
    }

    /// The output of an accepted call.
    pub fn output(&mut self, call: Call, src: &[f64], dst: &[f64]) {
        let finite = dst.iter().all(|x| x.is_finite());
        let moved = finite && src.iter().zip(dst).any(|(x, y)| x != y);
        if !dst.is_empty() {
            let of = &mut self.outputs[call as usize];
            of[0] += 1;
            of[1] += u64::from(finite);
            of[2] += u64::from(moved);
        }
    }

    pub fn differs(&mut self, call: Call) {
        self.cases[call as usize] += 1;
        self.differing += 1;
    }

    /// A table of the counts by call and answer, without calls and answers that have none.
    fn print_table(&self, counts: &[[u64; ANSWERS]; CALLS.len()]) {
        let answers: Vec<usize> = (0..ANSWERS).filter(|&a| counts.iter().any(|of| of[a] > 0)).collect();
        let heads = answers.iter().map(|a| if *a == 0 { "accepted".to_string() } else { a.to_string() });
        println!("| call | cases | {} |", heads.collect::<Vec<_>>().join(" | "));
        println!("|---|---|{}", "---|".repeat(answers.len()));
        for (call, name, _) in CALLS {
            let of = &counts[call as usize];
            if sum(of) > 0 {
                let cells = answers.iter().map(|&a| if of[a] > 0 { grouped(of[a]) } else { String::new() });
                println!("| `{name}` | {} | {} |", grouped(sum(of)), cells.collect::<Vec<_>>().join(" | "));
            }
        }
        println!();
    }

    /// How often each fault was tried alone, and each two at once.
    fn print_faults(&self) {
        println!("| call | faults | times each alone | times each two at once |");
        println!("|---|---|---|---|");
        for (call, name, _) in CALLS {
            let (alone, more) = round_of(faults_of(call).len());
            let cases = self.cases[call as usize] as usize;
            if alone > 0 && cases > 0 {
                let times = [cases / 6 / alone, cases / 3 / more.max(1)].map(|count| grouped(count as u64));
                println!("| `{name}` | {alone} | {} | {} |", times[0], times[1]);
            }
        }
        println!();
    }

    /// Of the accepted calls that write, how many outputs are finite throughout, and how many changed the signal.
    fn print_outputs(&self) {
        println!("| call | outputs of accepted calls | finite throughout | finite, and another than the signal |");
        println!("|---|---|---|---|");
        for (call, name, _) in CALLS {
            let [outputs, finite, moved] = self.outputs[call as usize];
            if outputs > 0 {
                println!("| `{name}` | {} | {} | {} |", grouped(outputs), grouped(finite), grouped(moved));
            }
        }
        println!();
    }

    pub fn print(&self, seconds: f64) {
        println!("Agreements with the published Rust and with document 01, by call and answer:\n");
        self.print_table(&self.with_rust);
        println!("Agreements with document 01 alone, where the Rust has no such answer by a documented difference:\n");
        self.print_table(&self.alone);
        for (difference, text) in DIFFERENCES {
            let count = self.by_difference[difference as usize];
            if count > 0 {
                println!("- {text}: {}", grouped(count));
            }
        }
        println!();
        self.print_outputs();
        self.print_faults();
        let with_rust: u64 = self.with_rust.iter().map(|of| sum(of)).sum();
        let accepted: u64 = self.with_rust.iter().map(|of| of[0]).sum();
        println!(
            "{} cases in {seconds:.0} s: {} agree with the Rust in every bit ({} of them accepted), {} with document 01 alone, {} differ",
            grouped(sum(&self.cases)),
            grouped(with_rust),
            grouped(accepted),
            grouped(self.alone.iter().map(|of| sum(of)).sum()),
            grouped(self.differing)
        );
    }
}
