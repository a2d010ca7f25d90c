//! Writes what the library answers to many calls, a line each: the call, the numbers
//! and the lent parts, in hexadecimal. None of these calls has a list that drops a
//! pinned page.

use mover_tests::harness::drive::drive;
use mover_tests::harness::families::answers::requests;
use mover_tests::library;
use mover_tests::random::seed_from_environment;
use mover_tests::simulator::request::Request;
use std::io::{BufWriter, Write};
use std::process::ExitCode;

fn main() -> ExitCode {
    let requests = requests(seed_from_environment());
    match write_all(&requests, BufWriter::new(std::io::stdout().lock())) {
        Ok(()) => {
            eprintln!("{} calls", requests.len());
            ExitCode::SUCCESS
        }
        Err(why) => {
            eprintln!("{why}");
            ExitCode::FAILURE
        }
    }
}

fn write_all(requests: &[Request], mut out: impl Write) -> Result<(), String> {
    let calls = library::calls();
    for request in requests {
        let answer = drive(&calls, request)?;
        let mut line = format!("{:?} {:?}", request.call, answer.numbers);
        for &part in request.call.parts() {
            line.push(' ');
            for byte in answer.parts.get(part) {
                line.push_str(&format!("{byte:02x}"));
            }
        }
        writeln!(out, "{line}").map_err(|why| why.to_string())?;
    }
    out.flush().map_err(|why| why.to_string())
}
