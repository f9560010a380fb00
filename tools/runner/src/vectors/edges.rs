//! Blocks and moves at the edges of what REGISTER reads: where lines and pieces
//! of the input end, lines in no form, and blocks of the largest size.

use super::titled::Titled;
use crate::assemble::assemble;
use crate::examples::example;
use crate::generate::large::{block, Large};
use crate::generate::moves::MALFORMED;
use crate::limits::{MAX_DIGITS, MAX_INSTRUCTIONS};
use crate::rng::Rng;

/// How many bytes of an input are read at a time.
pub const PIECE_BYTES: usize = 4_096;
/// Bytes of a line that is far longer than a piece.
pub const LONG_LINE_BYTES: usize = 100_000;
/// Lines whose last number has more than 16 bits.
pub const MANY_LINES: usize = 65_537;
/// How many empty lines there are in an input of these alone.
const EMPTY_LINES: usize = 5_000;
/// The seed of the block of the largest size.
const SEED: u64 = 1;
/// A line of block P's moves that is begun behind its first call's.
const CUT_LINE: &str = "b 1 1\n";
/// Lines in no form, and how many of their bytes stand before a cut: a sixth
/// digit, a space and a carriage return stand behind it.
const CUT_MALFORMED: [(&str, usize); 3] = [("b 1 000001\n", 7), ("s 0 \n", 3), ("s 0\r\n", 3)];

/// The places of a digit in a line, each marked.
const DIGIT_PLACES: [&[u8]; 5] = [b"s ?\n", b"c ?\n", b"s 0?\n", b"b ? 9\n", b"b 9 ?\n"];
/// Keys of a call that opening cells fill up to 1,024, or past it.
const FURTHER_KEYS: usize = 20;
/// Opening cells with which they are 1,024, and with which they pass it by a key
/// behind the 1,024th.
const FILLING_CELLS: [usize; 2] = [1_004, 1_010];

/// All edges.
pub fn cases() -> Vec<Titled> {
    [
        few_lines(),
        last_lines(),
        numbers(),
        other_bytes(),
        cuts(),
        ends_at_cuts(),
        long_lines(),
        many_lines(),
        keys(),
        blocks(),
    ]
    .concat()
}

/// An accepted block of exactly 65,536 bytes.
pub fn full_block() -> Vec<u8> {
    block(&mut Rng::new(SEED), Large::Full)
}

/// The same with one byte more, which is refused with 1.
pub fn too_long_block() -> Vec<u8> {
    let mut bytes = full_block();
    bytes.push(b'\n');
    bytes
}

/// A line of so many bytes, and its line feed, that begins as a move and has too
/// many digits.
pub fn long_line(bytes: usize) -> String {
    format!("s {}\n", "0".repeat(bytes - "s ".len()))
}

/// Block P.
pub fn block_p() -> Vec<u8> {
    example("p").expect("P is an example").block()
}

/// The moves that document 01 lists for block P.
fn moves_of_p() -> &'static str {
    example("p").expect("P is an example").moves
}

/// The same without the last line feed.
fn unended_moves_of_p() -> &'static str {
    let moves = moves_of_p();
    moves.strip_suffix('\n').unwrap_or(moves)
}

/// A case on block P.
fn on_p(title: &str, moves: impl Into<Vec<u8>>) -> Titled {
    Titled {
        title: title.to_string(),
        block: block_p(),
        moves: moves.into(),
    }
}

fn few_lines() -> Vec<Titled> {
    let empty_lines = "\n".repeat(EMPTY_LINES);
    vec![
        on_p("no_input: no input on block P", ""),
        on_p("one_line_feed: an input that is one line feed", "\n"),
        on_p("empty_lines: 5,000 empty lines on block P", empty_lines),
    ]
}

fn last_lines() -> Vec<Titled> {
    let (moves, unended) = (moves_of_p(), unended_moves_of_p());
    vec![
        on_p("last_good: the last line ends at the input's end", unended),
        on_p(
            "last_refused: a refused move that ends at the input's end",
            format!("{moves}s 0"),
        ),
        on_p(
            "last_malformed: a last line in no form that ends at the input's end",
            format!("{moves}s 0 "),
        ),
        on_p(
            "last_empty: an empty last line behind P's moves",
            format!("{moves}\n"),
        ),
    ]
}

/// Numbers of five digits, which are numbers, and of six, which are none.
fn numbers() -> Vec<Titled> {
    let padded: String = moves_of_p()
        .lines()
        .map(|line| line.replace(' ', " 0000") + "\n")
        .collect();
    let largest = "s 99999\nc 99999\nb 99999 0\nb 0 99999\nb 99999 99999\nb 7 00255\n";
    let six = "s 000000\nc 100000\nb 000000 0\nb 0 000000\nb 0 100000\nb 99999 100000\n";
    vec![
        on_p(
            "digits_5: numbers of five digits with leading zeros",
            padded,
        ),
        on_p("digits_5_largest: 99999 as worker and as call", largest),
        on_p("digits_6: numbers of six digits", six),
        on_p(
            "digits_6_then_p: a number of six digits, then P's moves",
            format!("b 0 000000\n{}", moves_of_p()),
        ),
    ]
}

/// Carriage returns, and all that may stand in a line in no form.
fn other_bytes() -> Vec<Titled> {
    let returns = moves_of_p().replace('\n', "\r\n");
    let mut malformed = MALFORMED.join(&b'\n');
    malformed.push(b'\n');
    malformed.extend(moves_of_p().bytes());
    let all_bytes: Vec<u8> = (0..=u8::MAX)
        .filter(|byte| *byte != b'\n')
        .flat_map(|byte| [b's', byte, b'0', b'\n'])
        .collect();
    let digits: Vec<u8> = (0..=u8::MAX)
        .filter(|byte| *byte != b'\n')
        .flat_map(|byte| {
            DIGIT_PLACES
                .concat()
                .into_iter()
                .map(move |at| if at == b'?' { byte } else { at })
        })
        .collect();
    vec![
        on_p("returns: a carriage return before each line feed", returns),
        on_p(
            "returns_only: carriage returns in place of line feeds",
            moves_of_p().replace('\n', "\r"),
        ),
        on_p("malformed: lines in no form, then P's moves", malformed),
        on_p("bytes: each byte in place of the space", all_bytes),
        on_p("bytes_digit: each byte in place of a digit", digits),
    ]
}

/// P's moves behind moves that fill a piece, so that the cut stands at each place
/// of a line, and in lines in no form.
fn cuts() -> Vec<Titled> {
    let (before, behind) = moves_of_p()
        .split_once(CUT_LINE)
        .expect("P's moves have the line");
    let mut cases: Vec<Titled> = (0..=CUT_LINE.len())
        .map(|bytes| {
            let title = format!("cut_{bytes}: byte 4,096 behind {bytes} bytes of b 1 1, line feed");
            let rest = format!("{before}{CUT_LINE}{behind}");
            on_p(&title, filled(PIECE_BYTES - before.len() - bytes) + &rest)
        })
        .collect();
    for (index, (line, bytes)) in CUT_MALFORMED.into_iter().enumerate() {
        let title = format!("cut_malformed_{index}: a line in no form across byte 4,096");
        let rest = format!("{before}{line}{CUT_LINE}{behind}");
        cases.push(on_p(
            &title,
            filled(PIECE_BYTES - before.len() - bytes) + &rest,
        ));
    }
    let third = filled(2 * PIECE_BYTES - before.len() - 3) + moves_of_p();
    cases.push(on_p("cut_twice: lines across bytes 4,096 and 8,192", third));
    cases
}

/// Inputs that end with a piece, or one byte behind it.
fn ends_at_cuts() -> Vec<Titled> {
    let (moves, unended) = (moves_of_p(), unended_moves_of_p());
    vec![
        on_p(
            "piece: an input of 4,096 bytes, the last a line feed",
            filled(PIECE_BYTES - moves.len()) + moves,
        ),
        on_p(
            "piece_unended: an input of 4,096 bytes, the last no line feed",
            filled(PIECE_BYTES - unended.len()) + unended,
        ),
        on_p(
            "piece_and_line_feed: an input of 4,097 bytes, the last a line feed",
            filled(PIECE_BYTES - unended.len()) + moves,
        ),
    ]
}

fn long_lines() -> Vec<Titled> {
    let then_p = |bytes: usize| long_line(bytes) + moves_of_p();
    let last = long_line(PIECE_BYTES + 1).replace('\n', "");
    vec![
        on_p(
            "line_4095: a line of 4,095 bytes, then P's moves",
            then_p(PIECE_BYTES - 1),
        ),
        on_p(
            "line_4096: a line of 4,096 bytes, then P's moves",
            then_p(PIECE_BYTES),
        ),
        on_p(
            "line_4097_last: P's moves, then 4,097 bytes without line feed",
            moves_of_p().to_string() + &last,
        ),
        on_p(
            "line_100000: a line of 100,000 bytes, then P's moves",
            then_p(LONG_LINE_BYTES),
        ),
    ]
}

/// More accepted moves than 16 bits count, then one that is refused.
fn many_lines() -> Vec<Titled> {
    let code = "set r0 1\n".repeat(MAX_INSTRUCTIONS);
    let text = format!("function 32768 0\n{code}call 5 32768 0 0\nend\n");
    let steps = "s 0\n".repeat(MAX_INSTRUCTIONS + 1);
    let round = format!("b 0 0\n{steps}c 0\n");
    let accepted = round.lines().cycle().take(MANY_LINES - 1);
    let moves: String = accepted.map(|line| format!("{line}\n")).collect();
    vec![Titled {
        title: "lines_65537: a refused move as line 65,537".to_string(),
        block: assemble(&text).expect("the text is a block's"),
        moves: (moves + "s 1\n").into_bytes(),
    }]
}

fn blocks() -> Vec<Titled> {
    let moves = "b 0 0\ns 0\nb 8 0\nb 0 1\nb 1 0\nb 1 254\ns 1\n\nc 0\nb 7 0\ns 7";
    let with = |title: &str, block: Vec<u8>| Titled {
        title: title.to_string(),
        block,
        moves: moves.into(),
    };
    let end = assemble("end").expect("an end is a block's text");
    vec![
        with(
            "block_65536: a block of 65,536 bytes, unfinished",
            full_block(),
        ),
        with("block_65537: a block of 65,537 bytes", too_long_block()),
        with("block_empty: a block of no bytes", Vec::new()),
        with("block_end: a block of an end alone", end.clone()),
        Titled {
            title: "block_end_silent: an end alone and no input, nothing is printed".to_string(),
            block: end,
            moves: Vec::new(),
        },
    ]
}

/// The limit of 1,024 keys, met and passed inside one call.
fn keys() -> Vec<Titled> {
    let code: String = (0..FURTHER_KEYS)
        .map(|field| format!("put r0 {} zero zero\n", field + 2))
        .collect();
    let case = |cells: usize| {
        let lines: String = (0..cells)
            .map(|a| format!("cell 32768 1 {a} 0 1\n"))
            .collect();
        let text = format!("function 32768 0\n{code}{lines}call 5 32768 0 0\nend\n");
        Titled {
            title: format!(
                "keys_{}: {cells} cells and a call of {FURTHER_KEYS} further keys",
                cells + FURTHER_KEYS
            ),
            block: assemble(&text).expect("the text is a block's"),
            moves: Vec::new(),
        }
    };
    FILLING_CELLS.map(case).to_vec()
}

/// Moves of exactly so many bytes, all accepted on block P at its opening, that
/// leave every call waiting. The first two have leading zeros to fill up.
fn filled(bytes: usize) -> String {
    const ROUND: &str = "b 0 0\nc 0\n";
    const MOST_ZEROS: usize = MAX_DIGITS - 1;
    let (rounds, left) = (bytes / ROUND.len(), bytes % ROUND.len());
    let first = left.min(MOST_ZEROS);
    let second = (left - first).min(MOST_ZEROS);
    let third = left - first - second;
    let [first, second, third] = [first, second, third].map(|zeros| "0".repeat(zeros));
    let longest = format!("b {first}0 {second}0\nc {third}0\n");
    longest + &ROUND.repeat(rounds - 1)
}
