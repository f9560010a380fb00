//! Help and wrong usage.

use std::ffi::OsStr;
use std::os::unix::ffi::OsStrExt;

use crate::room::Room;

const COMMANDS: [(&str, &str); 8] = [
    ("assemble", "TEXT BLOCK"),
    ("disassemble", "BLOCK [TEXT]"),
    ("inspect", "BLOCK"),
    ("explain", "BLOCK [MOVES]"),
    ("next", "SHEET DAY BLOCK"),
    ("waits", "BLOCK SVG"),
    ("schedule", "BLOCK MOVES SVG"),
    ("day", "BLOCK MOVES HTML"),
];

fn wrong(arguments: &[&str], error: &str) {
    let told = Room::new().with("a", "end").desk(arguments).told(2);
    assert_eq!(told, format!("{error}\n"));
}

#[test]
fn the_program_lists_its_commands() {
    let room = Room::new();
    let help = room.desk(&["--help"]).printed();
    for (name, files) in COMMANDS {
        assert!(
            help.contains(&format!("\n  {name} {files} ")),
            "{name}\n{help}"
        );
    }
    assert_eq!(room.desk(&["help"]).printed(), help);
    assert_eq!(room.desk(&["-h"]).printed(), help);
}

#[test]
fn the_program_tells_its_version() {
    let room = Room::new();
    let version = room.desk(&["--version"]).printed();
    assert_eq!(version, format!("desk {}\n", env!("CARGO_PKG_VERSION")));
    assert_eq!(room.desk(&["-V"]).printed(), version);
}

#[test]
fn each_command_has_its_help() {
    let room = Room::new();
    for (name, files) in COMMANDS {
        let help = room.desk(&[name, "--help"]).printed();
        assert!(
            help.starts_with(&format!("usage: desk {name} {files}\n\n")),
            "{help}"
        );
        assert!(
            help.contains(&format!("\nexample:\n  desk {name} ")),
            "{help}"
        );
        assert!(help.lines().all(|line| line.len() <= 90), "{help}");
        for others in [&["help", name][..], &["--help", name], &[name, "x", "-h"]] {
            assert_eq!(room.desk(others).printed(), help);
        }
    }
}

#[test]
fn wrong_commands() {
    wrong(&[], "desk: a command is missing; see desk --help");
    wrong(&["list"], "desk: there is no command list; see desk --help");
    wrong(
        &["--verbose"],
        "desk: there is no command --verbose; see desk --help",
    );
    wrong(
        &["--version", "next"],
        "desk: next is one word too many; see desk --help",
    );
    wrong(
        &["help", "list"],
        "desk: there is no command list; see desk --help",
    );
    wrong(
        &["help", "next", "day"],
        "desk: day is one word too many; see desk --help",
    );
    wrong(
        &["a\nb"],
        "desk: there is no command a\\nb; see desk --help",
    );
    let told = Room::new().desk(&[OsStr::from_bytes(b"\xff")]).told(2);
    assert_eq!(
        told,
        "desk: there is no command \u{fffd}; see desk --help\n"
    );
}

#[test]
fn wrong_files() {
    for (name, files) in COMMANDS {
        let names: Vec<&str> = files.split(' ').collect();
        let required = names.iter().filter(|name| !name.starts_with('['));
        for (given, missing) in required.enumerate() {
            let arguments = [&[name][..], &vec!["a"; given]].concat();
            wrong(
                &arguments,
                &format!("desk {name}: {missing} is missing; see desk {name} --help"),
            );
        }
        let arguments = [&[name][..], &vec!["a"; names.len()], &["b"]].concat();
        wrong(
            &arguments,
            &format!("desk {name}: b is one file too many; see desk {name} --help"),
        );
        wrong(
            &[name, "--fast"],
            &format!("desk {name}: there is no option --fast; see desk {name} --help"),
        );
    }
}

#[test]
fn standard_input_is_one_file() {
    for arguments in [
        &["explain", "-", "-"][..],
        &["next", "-", "-", "b"],
        &["day", "-", "-", "-"],
    ] {
        let name = arguments[0];
        let error = "standard input can be one file only";
        wrong(
            arguments,
            &format!("desk {name}: {error}; see desk {name} --help"),
        );
    }
}

#[test]
fn no_file_is_written_over_its_source() {
    let room = Room::new().with("a.txt", "end").linked("a.txt", "b.txt");
    for output in ["a.txt", "./a.txt", "b.txt"] {
        let told = room.desk(&["assemble", "a.txt", output]).told(2);
        let error = format!("{output} would be written over; see desk assemble --help");
        assert_eq!(told, format!("desk assemble: {error}\n"));
    }
    assert_eq!(room.file("a.txt").as_deref(), Some(&b"end"[..]));
    let devices = room.desk(&["disassemble", "/dev/null", "/dev/null"]);
    assert_eq!(devices.printed(), "");
}
