//! The program `desk`.

use std::process::ExitCode;

fn main() -> ExitCode {
    desk::cli::run(std::env::args_os().skip(1).collect())
}
