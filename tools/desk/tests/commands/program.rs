//! The program with files and streams.

use std::fs::{metadata, set_permissions, Permissions};
use std::os::unix::fs::PermissionsExt;

use runner::assemble::assemble;
use runner::examples::{example, EXAMPLES};

use crate::block_p;
use crate::room::Room;

const NO_FILE: &str = "No such file or directory (os error 2)\n";

#[test]
fn examples_go_there_and_back() {
    for example in EXAMPLES {
        let room = Room::new().with("a.txt", example.text);
        assert_eq!(room.desk(&["assemble", "a.txt", "a.bin"]).printed(), "");
        assert_eq!(room.file("a.bin"), Some(example.block()));
        assert_eq!(room.desk(&["disassemble", "a.bin", "b.txt"]).printed(), "");
        assert_eq!(room.desk(&["assemble", "b.txt", "b.bin"]).printed(), "");
        assert_eq!(room.file("b.bin"), Some(example.block()));
    }
}

#[test]
fn streams_stand_for_files() {
    let room = Room::new().with("p.bin", block_p());
    let text = room.desk(&["disassemble", "p.bin"]).printed();
    assert_eq!(room.desk(&["disassemble", "p.bin", "-"]).printed(), text);
    assert_eq!(
        room.desk_reading(&["disassemble", "-"], &block_p())
            .printed(),
        text
    );
    let written = room.desk_reading(&["assemble", "-", "-"], b"end");
    assert_eq!(written.printed(), "\0\0\u{4}\0");
    let inspected = room.desk(&["inspect", "p.bin"]).printed();
    assert_eq!(
        room.desk_reading(&["inspect", "-"], &block_p()).printed(),
        inspected
    );
}

#[test]
fn errors_of_a_text_name_file_line_and_column() {
    let room = Room::new().with("pledge.txt", "function 32768 0\n    add r0 r9 r1\nend\n");
    let told = room.desk(&["assemble", "pledge.txt", "b.bin"]).told(1);
    assert_eq!(told, "pledge.txt:2:12: register r9: there are r0 to r7\n");
    assert_eq!(room.file("b.bin"), None);
    let told = room
        .desk_reading(&["assemble", "-", "b.bin"], b"end\r\n")
        .told(1);
    let error = "standard input:1:4: carriage return: a line ends in a line feed alone\n";
    assert_eq!(told, error);
    let told = room
        .desk_reading(&["assemble", "-", "b.bin"], b"end \xff")
        .told(1);
    assert_eq!(
        told,
        "standard input:1:5: byte 0xff: the text is not UTF-8\n"
    );
}

#[test]
fn files_that_cannot_be_read_are_named() {
    let room = Room::new().with("p.bin", block_p());
    let missing: [&[&str]; 10] = [
        &["assemble", "none", "b"],
        &["disassemble", "none"],
        &["inspect", "none"],
        &["explain", "none"],
        &["explain", "p.bin", "none"],
        &["next", "none", "p.bin", "b"],
        &["next", "p.bin", "none", "b"],
        &["waits", "none", "b"],
        &["schedule", "p.bin", "none", "b"],
        &["day", "p.bin", "none", "b"],
    ];
    for arguments in missing {
        assert_eq!(room.desk(arguments).told(1), format!("none: {NO_FILE}"));
        assert_eq!(room.file("b"), None);
    }
    let told = room.desk(&["inspect", "."]).told(1);
    assert_eq!(told, ".: Is a directory (os error 21)\n");
}

#[test]
fn files_that_cannot_be_written_are_named() {
    let room = Room::new().with("p.bin", block_p()).with("a.txt", "end");
    let name = "none/out";
    let told = room.desk(&["disassemble", "p.bin", name]).told(1);
    assert_eq!(told, format!("{name}: {NO_FILE}"));
    let told = room.desk(&["assemble", "a.txt", name]).told(1);
    assert_eq!(told, format!("{name}: {NO_FILE}"));
    let room = room.with("sheet", assemble("end").expect("an end is a text"));
    let told = room.desk(&["next", "sheet", "a.txt", name]).told(1);
    assert_eq!(told, format!("{name}: {NO_FILE}"));
}

#[test]
fn a_full_disk_is_told() {
    let room = Room::new().with("p.bin", block_p());
    let told = room.desk(&["disassemble", "p.bin", "/dev/full"]).told(1);
    assert_eq!(told, "/dev/full: No space left on device (os error 28)\n");
}

#[test]
fn a_file_is_written_whole_or_stays() {
    let room = Room::new()
        .with("p.bin", block_p())
        .with("moves", "s 0\n")
        .with("old", "an old picture");
    let commands: [&[&str]; 3] = [
        &["waits", "p.bin"],
        &["schedule", "p.bin", "moves"],
        &["day", "p.bin", "moves"],
    ];
    for command in commands {
        for output in ["old", "new"] {
            let arguments = [command, &[output]].concat();
            let told = room.desk_without_room(&arguments).told(1);
            assert_eq!(told, format!("{output}: File too large (os error 27)\n"));
            assert_eq!(room.names(), ["moves", "old", "p.bin"]);
            assert_eq!(room.file("old").as_deref(), Some(&b"an old picture"[..]));
        }
    }
}

#[test]
fn what_takes_a_name_keeps_rights_and_links() {
    let room = Room::new()
        .with("a.txt", "end")
        .with("b.bin", "old")
        .pointed("b.bin", "link")
        .pointed("c.bin", "nowhere");
    let rights = |mode| Permissions::from_mode(mode);
    set_permissions(room.path("b.bin"), rights(0o640)).expect("a file has rights");
    for (name, target) in [("link", "b.bin"), ("nowhere", "c.bin"), ("d.bin", "d.bin")] {
        assert_eq!(room.desk(&["assemble", "a.txt", name]).printed(), "");
        assert_eq!(room.file(target), Some(vec![0, 0, 4, 0]));
    }
    assert!(room.path("link").is_symlink() && room.path("nowhere").is_symlink());
    let found = metadata(room.path("b.bin")).expect("the file is there");
    assert_eq!(found.permissions().mode() & 0o777, 0o640);
    let names = ["a.txt", "b.bin", "c.bin", "d.bin", "link", "nowhere"];
    assert_eq!(room.names(), names);
}

#[test]
fn nothing_is_drawn_of_a_refused_block() {
    let room = Room::new()
        .with("cut.bin", [0, 0, 4])
        .with("moves", "s 0\n");
    let commands: [&[&str]; 2] = [
        &["waits", "cut.bin", "out"],
        &["schedule", "cut.bin", "moves", "out"],
    ];
    for arguments in commands {
        let told = room.desk(arguments).told(1);
        assert!(told.starts_with("cut.bin: "), "{told}");
        assert_eq!(room.file("out"), None);
    }
}

#[test]
fn the_page_of_a_refused_block_says_why() {
    let room = Room::new()
        .with("cut.bin", [0, 0, 4])
        .with("moves", "s 0\n");
    let printed = room.desk(&["day", "cut.bin", "moves", "out"]).printed();
    assert_eq!(printed, "");
    let page = String::from_utf8(room.file("out").expect("a page")).expect("text");
    assert!(page.contains("e 2 0"), "{page}");
}

#[test]
fn a_refused_block_is_printed_with_status_1() {
    let room = Room::new()
        .with("cut.bin", [0, 0, 4])
        .with("moves", "s 0\n");
    let commands: [&[&str]; 3] = [
        &["inspect", "cut.bin"],
        &["explain", "cut.bin"],
        &["explain", "cut.bin", "moves"],
    ];
    for arguments in commands {
        let answer = room.desk(arguments);
        assert_eq!((answer.status, answer.error.as_str()), (1, ""));
        let words = "e 2 0\n2 at offset 0: a record or the end is missing or cut\n";
        assert!(answer.output.starts_with(words), "{}", answer.output);
    }
    let text = room.desk(&["disassemble", "cut.bin"]).printed();
    assert!(text.ends_with("raw 00 00 04\n"), "{text}");
}

#[test]
fn a_run_is_explained() {
    let p = example("p_refused").expect("it is an example");
    let room = Room::new().with("p.bin", p.block()).with("moves", p.moves);
    let text = room.desk(&["explain", "p.bin", "moves"]).printed();
    let line = "line 1: b 1 1: 25: call 1 waits for call 0, which is waiting\n";
    assert!(text.contains(line), "{text}");
    let read = room.desk_reading(&["explain", "p.bin", "-"], p.moves.as_bytes());
    assert_eq!(read.printed(), text);
    let unfinished = room.desk_reading(&["explain", "p.bin", "-"], b"");
    assert!(unfinished
        .printed()
        .contains("\nr 0 27: there is no closing sheet: 3 calls"));
    let accepted = room.desk(&["explain", "p.bin"]).printed();
    assert_eq!(
        accepted,
        "accepted: 3 functions, 1 opening cell, 3 calls, 4 keys\n"
    );
}

#[test]
fn the_next_block_is_written() {
    let sheet = "cell 7 0 0 0 1\nraw 04000500 00000200\nend";
    let day = "function 32768 0\nstop\ncall 7 32768 0 1\n";
    let block = "function 32768 0\nstop\ncell 7 0 0 0 1\ncall 7 32768 0 1\nend";
    let bytes = |text: &str| assemble(text).expect("the text is a block's");
    let room = Room::new()
        .with("sheet", bytes(sheet))
        .with("day.txt", day)
        .with("day.bin", bytes(&format!("{day}end")));
    for form in ["day.txt", "day.bin"] {
        assert_eq!(
            room.desk(&["next", "sheet", form, "next.bin"]).printed(),
            ""
        );
        assert_eq!(room.file("next.bin"), Some(bytes(block)));
    }
}

#[test]
fn a_sheet_is_told_from_a_block() {
    let sheet = "cell 7 0 0 0 1\nraw 04000500 00000200\nend";
    let room = Room::new().with("sheet.bin", assemble(sheet).expect("it is a text"));
    let answer = room.desk(&["explain", "sheet.bin"]);
    assert_eq!((answer.status, answer.error.as_str()), (1, ""));
    let words = "this is a closing sheet with 1 receipt, and no block: `desk next` makes the next \
                 day's block of it\n";
    assert!(answer.output.starts_with("e 3 24\n"), "{}", answer.output);
    assert!(answer.output.ends_with(words), "{}", answer.output);
}

#[test]
fn what_is_wrong_with_the_next_block_is_named() {
    let sheet = assemble("cell 7 0 0 0 9223372036854775807\nend").expect("it is a text");
    let room = Room::new()
        .with("sheet", &sheet)
        .with("cut", &sheet[..20])
        .with("day.txt", "end")
        .with("bad.txt", "function 32768 0\nstopp\n")
        .with("cells.txt", "cell 5 0 0 0 1\nend")
        .with("keys.txt", keys_25());
    let told = |sheet: &str, day: &str| {
        let told = room.desk(&["next", sheet, day, "next.bin"]).told(1);
        assert_eq!(room.file("next.bin"), None);
        told
    };
    let why = "cut: not a closing sheet: offset 0: 16 of the 20 bytes of its body are there\n";
    assert_eq!(told("cut", "day.txt"), why);
    let why = "bad.txt:2:1: word stopp: no item and no instruction\n";
    assert_eq!(told("sheet", "bad.txt"), why);
    let why = "cells.txt: it has a cell, balance of account 5; the cells are those of the sheet\n";
    assert_eq!(told("sheet", "cells.txt"), why);
    let why = "next.bin: the register would refuse it (24 bytes of the sheet's cells and ";
    assert!(told("sheet", "keys.txt").starts_with(why));
}

/// A day with a call of 25 keys.
fn keys_25() -> String {
    let puts: String = (1..=25)
        .map(|field| format!("put r0 {field} zero zero\n"))
        .collect();
    format!("function 32768 0\n{puts}call 5 32768 0 0\n")
}

/// What is told of a file that is longer than the longest of its kind.
fn above(most: usize, of: &str) -> String {
    format!("above {most} bytes, the most of {of}; no more were read\n")
}

#[test]
fn a_file_without_end_is_read_to_one_byte_beyond_the_limit() {
    let room = Room::new()
        .with("p.bin", block_p())
        .with("moves", "s 0\n")
        .with("sheet", assemble("end").expect("an end is a text"));
    let refused = "1 at offset 0: the file is above 65536 bytes\n\
                   the file has 65537 bytes or more; no more were read\n";
    for command in ["explain", "inspect"] {
        let answer = room.desk(&[command, "/dev/zero"]);
        assert_eq!((answer.status, answer.error.as_str()), (1, ""));
        assert_eq!(answer.output, format!("e 1 0\n{refused}"));
    }
    let drawn: [&[&str]; 2] = [
        &["waits", "/dev/zero", "out"],
        &["schedule", "/dev/zero", "moves", "out"],
    ];
    for arguments in drawn {
        assert_eq!(
            room.desk(arguments).told(1),
            format!("/dev/zero: {refused}")
        );
    }
    let texts: [&[&str]; 2] = [
        &["assemble", "/dev/zero", "out"],
        &["next", "sheet", "/dev/zero", "out"],
    ];
    for arguments in texts {
        let told = format!("/dev/zero: {}", above(4_194_304, "a text"));
        assert_eq!(room.desk(arguments).told(1), told);
    }
    let told = room.desk(&["disassemble", "/dev/zero", "out"]).told(1);
    assert_eq!(told, format!("/dev/zero: {}", above(65_536, "a block")));
    let told = room.desk(&["next", "/dev/zero", "p.bin", "out"]).told(1);
    let why = "not a closing sheet: offset 26628: a sheet has at most 26628 bytes";
    assert_eq!(told, format!("/dev/zero: {why}\n"));
    assert_eq!(room.file("out"), None);
}

#[test]
fn files_at_their_limits_are_read_whole() {
    let text = format!("end #{}", "x".repeat(4_194_304 - 5));
    let room = Room::new()
        .with("a.txt", &text)
        .with("b.txt", text + "x")
        .with("a.bin", [9; 65_536])
        .with("b.bin", [9; 65_537]);
    assert_eq!(room.desk(&["assemble", "a.txt", "out"]).printed(), "");
    assert_eq!(room.file("out"), Some(vec![0, 0, 4, 0]));
    let told = room.desk(&["assemble", "b.txt", "out"]).told(1);
    assert_eq!(told, format!("b.txt: {}", above(4_194_304, "a text")));
    let text = room.desk(&["disassemble", "a.bin"]).printed();
    assert_eq!(assemble(text), Ok(vec![9; 65_536]));
    let told = room.desk(&["disassemble", "b.bin"]).told(1);
    assert_eq!(told, format!("b.bin: {}", above(65_536, "a block")));
}

#[test]
fn the_text_of_every_file_is_short_enough_to_be_read() {
    let length = |record: &[u8]| {
        let bytes: Vec<u8> = record.iter().copied().cycle().take(65_536).collect();
        desk::disassemble::disassemble(&bytes).len()
    };
    let code = |instruction: [u8; 8]| {
        let head = [0xf4, 0xff, 1, 0, 0xff, 0x7f, 0xff, 0xff];
        let code = instruction.repeat(8_190);
        desk::disassemble::disassemble(&[&head[..], &code].concat()).len()
    };
    let codes = (0..=16).flat_map(|op| [[op; 8], [op, 255, 255, 255, 255, 255, 255, 255]]);
    let records: [&[u8]; 4] = [
        &[0, 0, 255, 255],
        &[4, 0, 1, 0, 0xff, 0x7f, 0xff, 0xff],
        &[1, 0, 4, 0, 0, 0, 0, 255, 255],
        &[4, 0, 1, 0, 0xff, 0x7f, 0xff, 0xff, 0, 0, 9, 0],
    ];
    let longest = codes.map(code).chain(records.map(length)).max();
    assert!(longest < Some(4_194_304), "{longest:?}");
}
