//! The program bestored.

use std::process::ExitCode;

fn main() -> ExitCode {
    bestored::main()
}
