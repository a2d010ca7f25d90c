//! Compares the built step program with the simulator's, input by input, in
//! both forms.

use mover_tests::checks::tally::{ensure, Tally};
use mover_tests::harness::programs::{inputs, same_originals, same_output};
use mover_tests::random::seed_from_environment;
use std::ffi::OsStr;
use std::io::Write;
use std::process::{Command, ExitCode, Stdio};

const LEAST_INPUTS: usize = 300;

fn main() -> ExitCode {
    let seed = seed_from_environment();
    println!("seed {seed}");
    let program = std::env::var_os("MOVER_STEPS").expect("MOVER_STEPS names the step program");
    let inputs = inputs(seed);
    let mut tally = Tally::default();
    let enough = ensure(inputs.len() >= LEAST_INPUTS, || inputs.len().to_string());
    tally.check("the number of inputs", enough);
    for (words, same) in FORMS {
        for input in &inputs {
            let outcome = output(&program, words, input).and_then(|given| same(input, &given));
            let differs = outcome.is_err();
            tally.check(&format!("the step program {words:?}"), outcome);
            if differs {
                break;
            }
        }
    }
    tally.finish()
}

type Compare = fn(&[u8], &[u8]) -> Result<(), String>;

/// The arguments, and what is due. The second form has its word as the first
/// argument; others change nothing.
const FORMS: [(&[&str], Compare); 6] = [
    (&[], same_output),
    (&["--originals"], same_originals),
    (&["--originals", "--bytes"], same_originals),
    (&["--original"], same_output),
    (&["--originalss"], same_output),
    (&["", "--originals"], same_output),
];

/// What the program writes; it need not read an input to its end.
fn output(program: &OsStr, words: &[&str], input: &[u8]) -> Result<Vec<u8>, String> {
    let mut running = Command::new(program)
        .args(words)
        .stdin(Stdio::piped())
        .stdout(Stdio::piped())
        .spawn()
        .map_err(|why| format!("{program:?} does not start: {why}"))?;
    let mut stdin = running.stdin.take().expect("standard input is a pipe");
    let _ = stdin.write_all(input);
    drop(stdin);
    let ended = running.wait_with_output().map_err(|why| why.to_string())?;
    ensure(ended.status.success(), || {
        format!("{program:?} ended with {}", ended.status)
    })?;
    Ok(ended.stdout)
}
