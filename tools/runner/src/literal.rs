//! Cases as modules of a proof language, each with the statement that its cases agree.

use std::fmt::Write;

use crate::generate::Case;
use crate::limits::MAX_WORKERS;
use crate::machine::open;

/// How many cases a module holds: what one computation checks in a few seconds.
const CASES_PER_MODULE: usize = 34;

/// What stands in a module before its cases.
const HEADER: &str = "use Rattle.std.specs.Prelude.{◌≡◌, refl, List, [], ◌∷◌}
use Rattle.block.specs.Assemble.{text}
use Rattle.console.specs.Computing as console
use Rattle.cases.specs.Case.{Case, case, unpack, same, failures}

unfoldable pub cases : List Case
cases =
";

/// The modules `Random1`, `Random2`, .. of the cases: name and text.
pub fn modules(cases: &[Case]) -> Vec<(String, String)> {
    cases
        .chunks(CASES_PER_MODULE)
        .enumerate()
        .map(|(index, chunk)| {
            let name = format!("Random{}", index + 1);
            (name, module(index * CASES_PER_MODULE, chunk))
        })
        .collect()
}

/// A module of the cases from a number on.
pub fn module(first: usize, cases: &[Case]) -> String {
    let last = first + cases.len() - 1;
    let mut text =
        format!("-- Cases {first} to {last} of the independent runner.\n");
    text += HEADER;
    for (index, case) in cases.iter().enumerate() {
        let cons = if index == 0 { "" } else { "∷ " };
        let number = first + index;
        writeln!(
            text,
            "    -- {number}: {}\n    {cons}{}",
            note(case),
            element(case)
        )
        .expect("a string takes all text");
    }
    text + &format!(
        "    ∷ []\n\npub agree : failures {first} cases ≡ []\n\
         unfolding console.computing text unpack same failures cases\nagree = refl\n"
    )
}

/// One case: the block's length and bytes, and the two texts.
fn element(case: &Case) -> String {
    let (input, output) = (quoted(&case.input), quoted(&case.output));
    format!("case {} {input} {output}", numeral(&case.block))
}

/// A byte string: its length, and its bytes in reading order as one numeral.
fn numeral(bytes: &[u8]) -> String {
    if bytes.is_empty() {
        return "0 0x0".to_string();
    }
    let mut text = format!("{} 0x", bytes.len());
    for byte in bytes {
        write!(text, "{byte:02x}").expect("a string takes all text");
    }
    text
}

/// A byte string as a quoted text, each byte the character of that number.
fn quoted(bytes: &[u8]) -> String {
    let escaped = bytes.iter().map(|&byte| match byte {
        0 => "\\0".to_string(),
        b'\n' => "\\n".to_string(),
        b'\r' => "\\r".to_string(),
        b'\t' => "\\t".to_string(),
        b'"' | b'\\' => format!("\\{}", byte as char),
        32..=126 | 161..=172 | 174..=255 => (byte as char).to_string(),
        _ => format!("\\u{{{byte:x}}}"),
    });
    format!("\"{}\"", escaped.collect::<String>())
}

/// What kind of case it is.
fn note(case: &Case) -> String {
    match open(&case.block, MAX_WORKERS) {
        Ok(opened) => {
            let lines = crate::console::lines(&case.input).count();
            format!(
                "accepted, {} calls, {lines} lines",
                opened.block.calls.len()
            )
        }
        Err(refusal) => {
            let number = refusal.fault.number();
            format!("refused {number} at {}", refusal.offset)
        }
    }
}
