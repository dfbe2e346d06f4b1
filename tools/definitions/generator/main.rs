//! Writes antt in which the definitions' answers are compared with the straight scan's, and prints how many there are.
//!
//! `generator FOLDER SEED CALLS`: the modules go to FOLDER/specs, and FOLDER/index says what each call or value is.
//! With NAMES after it, only those lists are written, with theorems from which to read where the two part.

mod antt;
mod calls;
mod floats;
#[path = "../../../rust/tests/numbers/mod.rs"]
mod numbers;
mod pseudo_random;
mod random;
mod sheet_values;
mod sheets;
#[path = "../../../oracle/straight_scan.rs"]
#[allow(dead_code)]
#[rustfmt::skip]
mod straight_scan;
mod targeted;
mod values;

use antt::Output;
use random::Random;
use std::fs::write;

/// Calls of a pseudo-random sequence, and sequences of a module.
const CALLS_OF_SEQUENCE: usize = 14;
const SEQUENCES_OF_MODULE: usize = 12;

fn generate(seed: u64, calls: usize, only: &[String]) -> Output {
    let mut output = Output { only: only.to_vec(), ..Output::default() };
    for few in targeted::all().chunks(SEQUENCES_OF_MODULE) {
        output.module();
        few.iter().for_each(|sequence| output.sequence(sequence));
    }
    let mut random = Random::new(seed, 0);
    sheet_values::all(&mut output, &mut random);
    values::all(&mut output, &mut random);
    for k in 0..calls.div_ceil(CALLS_OF_SEQUENCE) {
        if k % SEQUENCES_OF_MODULE == 0 {
            output.module();
        }
        // A stream for each sequence: one of them stays the same however many calls are asked for.
        let mut random = Random::new(seed, k as u64 + 1);
        output.sequence(&pseudo_random::sequence(&mut random, format!("random-{}", k + 1), CALLS_OF_SEQUENCE));
    }
    output
}

fn main() -> std::io::Result<()> {
    let arguments: Vec<String> = std::env::args().collect();
    let [_, folder, seed, calls, only @ ..] = &arguments[..] else { panic!("FOLDER SEED CALLS NAMES") };
    let output = generate(seed.parse().expect("SEED is a number"), calls.parse().expect("CALLS is a number"), only);
    let mut lib = "pub mod Harness\n".to_string();
    for (k, text) in output.modules.iter().enumerate() {
        write(format!("{folder}/specs/Part{}.antt", k + 1), text)?;
        lib += &format!("pub mod Part{}\n", k + 1);
    }
    write(format!("{folder}/specs/Lib.antt"), lib)?;
    write(format!("{folder}/index"), &output.index)?;
    let mut last = "";
    for ((kind, outcome), count) in &output.counts {
        if *kind != last {
            print!("{}{kind:<15}", if last.is_empty() { "" } else { "\n" });
        }
        last = kind;
        print!(" {outcome}: {count:<5}");
    }
    println!("\n{} in all", output.counts.values().sum::<u64>());
    Ok(())
}
