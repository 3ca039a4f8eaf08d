//! The main function of a program of tests: arguments to a test, what it says, and the exit code.

use std::process::ExitCode;

/// Runs the test that the arguments name; `None` where they name none.
pub fn main(usage: &str, test: impl FnOnce(&[&str]) -> Option<Result<String, String>>) -> ExitCode {
    let arguments: Vec<String> = std::env::args().skip(1).collect();
    let arguments: Vec<&str> = arguments.iter().map(String::as_str).collect();
    let Some(result) = test(&arguments) else {
        eprintln!("usage: {usage}");
        return ExitCode::from(2);
    };
    let (said, code) = match result {
        Ok(said) => (said, ExitCode::SUCCESS),
        Err(said) => (said, ExitCode::FAILURE),
    };
    println!("{said}");
    code
}
