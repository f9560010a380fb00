//! A refused block, or a run, in words.

use std::collections::BTreeMap;

use runner::cells::Cells;
use runner::execute::Receipt;
use runner::key::Key;
use runner::refusal::SheetRefusal;

use crate::refused::{open, Refused};
use crate::words::{self, Played, Remark};

/// The text for a block: its sizes, or why it is refused.
pub fn block(bytes: &[u8]) -> Result<String, Refused> {
    let opened = open(bytes)?;
    Ok(format!("accepted: {}\n", words::sizes(&opened)))
}

/// The text for a block and the moves of a run: each line that REGISTER prints,
/// in words, and a summary.
pub fn run(bytes: &[u8], moves: &[u8]) -> Result<String, Refused> {
    let opened = open(bytes)?;
    let played = words::play(bytes, &opened, moves);
    let mut lines = vec![
        format!("accepted: {}", words::sizes(&opened)),
        String::new(),
    ];
    lines.extend(refused_lines(&played));
    lines.extend(finished_calls(&played));
    lines.extend(closing(&played));
    lines.extend([String::new(), line_summary(&played), call_summary(&played)]);
    Ok(lines.join("\n") + "\n")
}

fn refused_lines(played: &Played) -> Vec<String> {
    let refused = played.remarks.iter().filter(|remark| remark.line > 0);
    let lines: Vec<String> = refused.map(remark_line).collect();
    if lines.is_empty() {
        vec!["no line is refused".to_string()]
    } else {
        lines
    }
}

fn remark_line(remark: &Remark) -> String {
    let Remark {
        line,
        text,
        number,
        words,
    } = remark;
    format!("line {line}: {text}: {number}: {words}")
}

/// The receipts in words, each behind its line.
fn finished_calls(played: &Played) -> Vec<String> {
    let states = played.machine.states().iter().enumerate();
    let receipts = states.filter_map(|(call, state)| Some((call, state.receipt()?)));
    let lines = receipts.map(|(call, Receipt { outcome, count })| {
        let words = played.receipt(call).unwrap_or_default();
        format!("t {call} {} {count}: {words}", outcome.number())
    });
    under("finished calls:", lines.collect())
}

/// The cells in words, each behind its line, or what is unfinished.
fn closing(played: &Played) -> Vec<String> {
    let unfinished = words::unfinished(&played.machine);
    if !unfinished.is_empty() {
        let number = SheetRefusal::Unfinished.number();
        let calls = words::count(unfinished.len(), "call");
        let title = format!("r 0 {number}: there is no closing sheet: {calls} unfinished:");
        return under(&title, unfinished);
    }
    let opening = Cells::opening(&played.machine.opened().block.opening);
    let closing = played.machine.cells();
    let printed = closing.iter().map(|(key, value)| {
        let Key {
            address,
            field,
            a,
            b,
        } = *key;
        let words = cell_words(key, value, opening.get(key));
        format!("k {address} {field} {a} {b} {value}: {words}")
    });
    let gone = opening.iter().filter(|(key, _)| closing.get(key) == 0);
    let gone = gone.map(|(key, value)| format!("no line: {}", cell_words(key, 0, value)));
    under("cells of the closing sheet:", printed.chain(gone).collect())
}

fn cell_words(key: &Key, value: i64, opening: i64) -> String {
    let name = words::key(key);
    if value == opening {
        format!("{name} is {value}, as at the opening")
    } else {
        format!("{name} is {value}, {opening} at the opening")
    }
}

/// Lines under a title, if there are any.
fn under(title: &str, lines: Vec<String>) -> Vec<String> {
    if lines.is_empty() {
        return lines;
    }
    let head = [String::new(), title.to_string()];
    head.into_iter().chain(lines).collect()
}

/// How many lines were accepted and refused.
fn line_summary(played: &Played) -> String {
    let refused = played.remarks.iter().filter(|remark| remark.line > 0);
    let numbers = tally(refused.map(|remark| remark.number));
    let refused: usize = numbers.values().sum();
    let (lines, accepted) = (words::count(played.lines, "line"), played.lines - refused);
    let each = each(&numbers, "number");
    format!("{lines}: {accepted} accepted, {refused} refused{each}")
}

/// How many calls are finished.
fn call_summary(played: &Played) -> String {
    let states = played.machine.states();
    let receipts = states.iter().filter_map(|state| state.receipt());
    let outcomes = tally(receipts.map(|receipt| receipt.outcome.number().into()));
    let finished: usize = outcomes.values().sum();
    let calls = words::count(states.len(), "call");
    let each = each(&outcomes, "outcome");
    format!("{calls}: {finished} finished{each}")
}

/// How often each number occurs.
fn tally(numbers: impl Iterator<Item = u32>) -> BTreeMap<u32, usize> {
    let mut tally = BTreeMap::new();
    for number in numbers {
        *tally.entry(number).or_default() += 1;
    }
    tally
}

/// Each number with how often it occurs: ` (2 with outcome 0, 1 with outcome 3)`.
fn each(tally: &BTreeMap<u32, usize>, name: &str) -> String {
    let each = tally.iter();
    let each = each.map(|(number, times)| format!("{times} with {name} {number}"));
    let each: Vec<String> = each.collect();
    if each.is_empty() {
        String::new()
    } else {
        format!(" ({})", each.join(", "))
    }
}
