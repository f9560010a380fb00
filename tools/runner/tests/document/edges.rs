//! The examples and the edges of the input as streams and as folders.

use std::collections::BTreeSet;
use std::fs;
use std::path::{Path, PathBuf};
use std::process::Command;
use std::sync::OnceLock;

use runner::console::{lines, register};
use runner::limits::MAX_WORKERS;
use runner::machine::open;
use runner::vectors::edges::cases;
use runner::vectors::files::{folders, Folder};
use runner::vectors::titled::{example_cases, examples, Titled, MAX_TITLE_BYTES};

/// Most bytes of the stored file of edges.
const MOST_BYTES: usize = 700_000;
/// What document 01 prints of block P with its moves.
const P: &str = "k 7 0 0 0 1\nk 32768 0 0 0 1\nk 32768 1 0 0 1\nt 0 0 2\nt 1 0 3\nt 2 0 2\n";

/// What is printed of edges: refused lines, and whether P's sheet follows.
const ANSWERS: [(&str, &str, bool); 25] = [
    ("no_input", "r 0 27\n", false),
    ("one_line_feed", "r 1 0\nr 0 27\n", false),
    ("last_good", "", true),
    ("last_refused", "r 16 26\n", true),
    ("last_malformed", "r 16 0\n", true),
    ("last_empty", "r 16 0\n", true),
    ("digits_5", "", true),
    (
        "digits_5_largest",
        "r 1 21\nr 2 21\nr 3 21\nr 4 22\nr 5 21\nr 6 22\nr 0 27\n",
        false,
    ),
    (
        "digits_6",
        "r 1 0\nr 2 0\nr 3 0\nr 4 0\nr 5 0\nr 6 0\nr 0 27\n",
        false,
    ),
    ("digits_6_then_p", "r 1 0\n", true),
    ("returns_only", "r 1 0\nr 0 27\n", false),
    ("cut_malformed_0", "r 818 0\n", true),
    ("cut_malformed_1", "r 820 0\n", true),
    ("cut_malformed_2", "r 820 0\n", true),
    ("cut_twice", "", true),
    ("piece", "", true),
    ("piece_unended", "", true),
    ("piece_and_line_feed", "", true),
    ("line_4095", "r 1 0\n", true),
    ("line_4097_last", "r 16 0\n", true),
    ("line_100000", "r 1 0\n", true),
    ("lines_65537", "r 65537 26\nr 0 27\n", false),
    ("block_65537", "e 1 0\n", false),
    ("block_empty", "e 2 0\n", false),
    ("block_end_silent", "", false),
];

/// The edge with a name, which begins its title.
fn edge(name: &str) -> &'static Titled {
    static CASES: OnceLock<Vec<Titled>> = OnceLock::new();
    let start = format!("{name}: ");
    let mut found = CASES
        .get_or_init(cases)
        .iter()
        .filter(|case| case.title.starts_with(&start));
    let case = found.next().expect("the edge is there");
    assert_eq!(found.next(), None, "{name} stands twice");
    case
}

fn folder(name: &str) -> Folder {
    let mut found = folders().into_iter().filter(|folder| folder.name == name);
    found.next().expect("the folder is there")
}

/// A new empty directory of a name.
fn scratch(name: &str) -> PathBuf {
    let directory = Path::new(env!("CARGO_TARGET_TMPDIR")).join(name);
    if directory.exists() {
        fs::remove_dir_all(&directory).expect("the directory is ours");
    }
    fs::create_dir_all(&directory).expect("a directory can be made");
    directory
}

/// Takes a part behind its length off a stream.
fn part(stream: &mut &[u8]) -> Vec<u8> {
    let (length, rest) = stream.split_first_chunk::<4>().expect("a length");
    let (part, rest) = rest.split_at(u32::from_le_bytes(*length) as usize);
    *stream = rest;
    part.to_vec()
}

/// The cases that a stream carries.
fn decoded(mut stream: &[u8]) -> Vec<Titled> {
    let mut cases = Vec::new();
    while !stream.is_empty() {
        cases.push(Titled {
            title: String::from_utf8(part(&mut stream)).expect("a title is ASCII"),
            block: part(&mut stream),
            moves: part(&mut stream),
        });
    }
    cases
}

#[test]
fn the_stream_carries_its_cases() {
    let all = [example_cases(), cases()].concat();
    assert_eq!(decoded(&examples().input), all);
    assert!(examples().input.len() < MOST_BYTES);
}

#[test]
fn titles_are_short_lines_of_ascii() {
    let all = [example_cases(), cases()].concat();
    let titles: BTreeSet<&str> = all.iter().map(|case| case.title.as_str()).collect();
    assert_eq!(titles.len(), all.len());
    for title in titles {
        assert!(title.len() <= MAX_TITLE_BYTES, "{title}");
        assert!(title.bytes().all(|byte| (b' '..=b'~').contains(&byte)));
    }
}

#[test]
fn examples_print_title_listing_and_output_in_the_documents_order() {
    let printed = String::from_utf8(examples().output).unwrap();
    let first =
        format!("# p: block P of document 01\nn 3 1 3 4\nw 0\nw 1 0\nw 2 1\n{P}# p_refused");
    assert!(printed.starts_with(&first));
    let refused = "\n# keys25: a call of 25 keys\ne 11 208\ne 11 208\n# empty_code";
    assert!(printed.contains(refused));
    let titles = printed.lines().filter(|line| line.starts_with('#'));
    let all = [example_cases(), cases()].concat();
    let names = all.iter().map(|one| format!("# {}", one.title));
    assert!(titles.eq(names));
}

#[test]
fn edges_print_their_answers() {
    for (name, refused, sheet) in ANSWERS {
        let expected = refused.to_string() + if sheet { P } else { "" };
        assert_eq!(edge(name).registered(), expected, "{name}");
    }
    let printed = String::from_utf8(examples().output).unwrap();
    let first =
        "\n# no_input: no input on block P\nn 3 1 3 4\nw 0\nw 1 0\nw 2 1\nr 0 27\n# one_line_feed";
    assert!(printed.contains(first));
    assert!(printed.ends_with("nothing is printed\nn 0 0 0 0\n"));
}

#[test]
fn every_empty_line_is_answered() {
    let lines: String = (1..=5_000).map(|line| format!("r {line} 0\n")).collect();
    assert_eq!(edge("empty_lines").registered(), lines + "r 0 27\n");
    let returns: String = (1..=15).map(|line| format!("r {line} 0\n")).collect();
    assert_eq!(edge("returns").registered(), returns + "r 0 27\n");
}

#[test]
fn of_all_bytes_only_the_space_divides() {
    let case = edge("bytes");
    let answered = |line: usize| if line == 32 { 26 } else { 0 };
    // The line feed is left out, so the space's line is its number.
    let printed: String = (1..=255)
        .map(|line| format!("r {line} {}\n", answered(line)))
        .collect();
    assert_eq!(case.registered(), printed + "r 0 27\n");
}

#[test]
fn cuts_stand_at_each_byte_of_a_line() {
    for before in 0..=6 {
        let case = edge(&format!("cut_{before}"));
        assert!(case.moves[4_096 - before..].starts_with(b"b 1 1\n"));
        assert_eq!(case.registered(), P);
    }
    let twice = &edge("cut_twice").moves;
    assert!(twice[8_192 - 3..].starts_with(b"b 1 1\n"));
    assert_ne!(twice[4_095], b'\n');
    let lengths = [
        ("piece", 4_096, b'\n'),
        ("piece_unended", 4_096, b'0'),
        ("piece_and_line_feed", 4_097, b'\n'),
    ];
    for (name, length, last) in lengths {
        let moves = &edge(name).moves;
        assert_eq!((moves.len(), moves.last()), (length, Some(&last)));
    }
}

#[test]
fn long_lines_have_their_lengths() {
    for length in [4_095, 4_096, 100_000] {
        let moves = &edge(&format!("line_{length}")).moves;
        assert_eq!(lines(moves).next().unwrap().len(), length);
    }
    let last = &edge("line_4097_last").moves;
    assert_eq!(lines(last).last().unwrap().len(), 4_097);
    assert_eq!(lines(&edge("lines_65537").moves).count(), 65_537);
}

#[test]
fn the_largest_block_is_accepted_and_a_longer_one_refused() {
    let (full, long) = (edge("block_65536"), edge("block_65537"));
    assert_eq!((full.block.len(), long.block.len()), (65_536, 65_537));
    assert_eq!(long.block[..65_536], full.block);
    let refused = "r 3 21\nr 4 23\nr 5 24\nr 6 22\nr 7 26\nr 8 0\nr 0 27\n";
    assert_eq!(full.registered(), refused);
}

#[test]
fn the_full_folder_ends_with_its_last_line() {
    let full = folder("test_edge_full");
    let block = full.block.as_deref().unwrap();
    assert_eq!(block.len(), 65_536);
    assert!(open(block, MAX_WORKERS).is_ok());
    assert!(lines(&full.input).any(|line| line.len() == 100_000));
    assert_ne!(full.input.last(), Some(&b'\n'));
    let printed = String::from_utf8(full.output()).expect("REGISTER prints text");
    for number in [0, 21, 22, 23, 24, 25, 26] {
        let end = format!(" {number}");
        let refused = |line: &str| line.starts_with('r') && line.ends_with(&end);
        assert!(printed.lines().any(refused), "no refusal {number}");
    }
    assert_eq!(
        printed.lines().filter(|line| line.starts_with('t')).count(),
        253
    );
    let feed = full.input.iter().rposition(|byte| *byte == b'\n').unwrap();
    let input = full.input[..=feed].to_vec();
    assert!(Folder { input, ..full }.output().ends_with(b"\nr 0 27\n"));
}

#[test]
fn the_other_folders_print_one_line() {
    let long = folder("test_edge_long");
    let block = long.block.as_deref().unwrap();
    assert_eq!(block.len(), 65_537);
    assert!(open(&block[..65_536], MAX_WORKERS).is_ok());
    assert_eq!(long.output(), b"e 1 0\n");
    assert_eq!(folder("test_edge_none").output(), b"e 2 0\n");
    assert_eq!(folder("test_edge_silent").output(), b"r 0 27\n");
    assert!(folder("test_edge_silent").input.is_empty());
}

#[test]
fn the_folders_of_sheets_have_refused_lines() {
    let (sheet, unfinished) = (folder("write_sheet"), folder("test_edge_unfinished"));
    let block = sheet.block.as_deref().unwrap();
    let refused = "r 1 25\nr 2 26\nr 3 0\nr 5 23\nr 6 24\nr 9 0\nr 13 21\nr 18 22\n";
    assert_eq!(
        register(block, &sheet.input),
        format!("{refused}r 24 26\nr 25 0\n{P}")
    );
    assert_eq!(sheet.output().len(), 100);
    assert_eq!(
        register(block, &unfinished.input),
        format!("{refused}r 23 26\nr 24 0\nr 0 27\n")
    );
    assert!(unfinished.output().is_empty());
}

#[test]
fn a_byte_beside_the_digits_is_no_digit() {
    let printed = edge("bytes_digit").registered();
    let numbers: Vec<&str> = printed
        .lines()
        .map(|line| line.rsplit(' ').next().unwrap())
        .collect();
    // Five lines for each byte, and none for the line feed.
    let of = |byte: u8| numbers[5 * (usize::from(byte) - 1)];
    assert_eq!([b'/', b':'].map(of), ["0", "0"]);
    assert_eq!([b'0', b'7', b'8', b'9'].map(of), ["26", "26", "21", "21"]);
}

#[test]
fn the_keys_of_a_call_may_fill_the_table_and_not_pass_it() {
    assert_eq!(edge("keys_1024").registered(), "r 0 27\n");
    assert_eq!(edge("keys_1030").registered(), "e 12 24408\n");
}

#[test]
fn folders_are_written_with_their_files() {
    let directory = scratch("folders");
    for folder in folders() {
        folder.write(&directory).expect("the folder is written");
        let home = directory.join(folder.name);
        assert_eq!(fs::read(home.join("data/block.bin")).ok(), folder.block);
        assert_eq!(fs::read(home.join("stdin")).unwrap(), folder.input);
        let printed = fs::read(home.join("stdout")).unwrap();
        assert_eq!(printed, folder.output());
    }
    assert!(!directory.join("test_edge_none/data").exists());
    fs::create_dir(directory.join("test_edge_none/data")).unwrap();
    assert!(folder("test_edge_none").write(&directory).is_err());
}

#[test]
fn the_commands_write_streams_and_folders() {
    let directory = scratch("commands");
    let home = directory.join("examples");
    vectors("examples", &home);
    assert_eq!(fs::read(home.join("stdin")).unwrap(), examples().input);
    assert_eq!(fs::read(home.join("stdout")).unwrap(), examples().output);
    vectors("files", &directory);
    assert!(directory.join("test_edge_full/data/block.bin").exists());
}

/// Runs the command `runner vectors KIND DIR`.
fn vectors(kind: &str, directory: &Path) {
    let mut command = Command::new(env!("CARGO_BIN_EXE_runner"));
    let ended = command.args(["vectors", kind]).arg(directory).status();
    assert!(ended.expect("the runner runs").success(), "{kind}");
}
