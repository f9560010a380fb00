//! The help of the program, and wrong usage.

use std::process::{Command, Stdio};

/// Runs the program without input: its status, its output and what it tells.
fn runner(words: &[&str]) -> (i32, String, String) {
    let mut command = Command::new(env!("CARGO_BIN_EXE_runner"));
    let output = command.args(words).stdin(Stdio::null()).output();
    let output = output.expect("the program runs");
    let text = |bytes| String::from_utf8(bytes).expect("it prints text");
    let status = output.status.code().expect("the program exits");
    (status, text(output.stdout), text(output.stderr))
}

#[test]
fn help_is_printed_of_the_program_and_of_each_command() {
    let (status, help, error) = runner(&["--help"]);
    assert_eq!((status, error.as_str()), (0, ""));
    assert!(
        help.starts_with("usage:\n  runner assemble TEXT BLOCK "),
        "{help}"
    );
    let listed = help
        .lines()
        .filter_map(|line| line.strip_prefix("  runner "));
    let names: Vec<&str> = listed.filter_map(|line| line.split(' ').next()).collect();
    assert_eq!(names.len(), 15, "{names:?}");
    let printed = (0, help.clone(), String::new());
    assert_eq!(runner(&["-h"]), printed);
    for name in names {
        assert_eq!(runner(&[name, "--help"]), printed, "{name}");
        assert_eq!(runner(&[name, "a", "-h"]), printed, "{name}");
    }
}

#[test]
fn an_option_is_no_missing_block() {
    for command in ["register", "inspect", "serial"] {
        let (status, output, error) = runner(&[command, "--fast"]);
        assert_eq!((status, output.as_str()), (1, ""));
        let why = "runner: there is no option --fast\nusage:\n";
        assert!(error.starts_with(why), "{error}");
        let missing = (0, "e 2 0\n".to_string(), String::new());
        assert_eq!(runner(&[command, "no such block"]), missing);
    }
}

#[test]
fn wrong_usage_is_told() {
    for words in [&[][..], &["list"], &["serial"], &["serial", "a", "b"]] {
        let (status, output, error) = runner(words);
        assert_eq!((status, output.as_str()), (1, ""));
        assert!(error.starts_with("runner: usage:\n"), "{error}");
    }
}
