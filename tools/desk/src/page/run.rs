//! The parts of a page that tell of the run: the day at a glance, the schedule
//! and the refused lines.

use std::collections::{BTreeMap, BTreeSet};

use runner::limits::MAX_WORKERS;

use super::table::{paragraph, table, Column};
use super::Day;
use crate::markup::Markup;
use crate::trace::SpanEnd;
use crate::{schedule, words};

/// Refused lines that are explained one by one.
const MOST_REMARKS: usize = 500;
/// Characters of a refused line that are shown.
const MOST_CHARACTERS: usize = 60;

impl Day<'_> {
    /// The sizes of the day, and how calls ended.
    pub fn glance(&self, out: &mut Markup) {
        let sheet = match self.trace.end.receipts() {
            Some(_) => "written",
            None => "none",
        };
        let items = [
            ("calls", self.opened.rows.len().to_string()),
            (
                "finished calls",
                self.outcomes().values().sum::<usize>().to_string(),
            ),
            ("lines of moves", self.trace.lines.len().to_string()),
            ("refused lines", self.trace.refused().count().to_string()),
            ("cancels", self.cancels().to_string()),
            (
                "workers used",
                format!("{} of {MAX_WORKERS}", self.workers()),
            ),
            ("closing sheet", sheet.to_string()),
        ];
        out.element("dl", &[], |out| {
            for (name, value) in &items {
                out.element("div", &[], |out| {
                    out.leaf("dt", &[], name);
                    out.leaf("dd", &[], value);
                });
            }
        });
        if !self.outcomes().is_empty() {
            self.outcome_table(out);
        }
    }

    fn outcome_table(&self, out: &mut Markup) {
        let columns = [
            Column::number("outcome"),
            Column::text("in words"),
            Column::number("calls"),
        ];
        let rows = self.outcomes().into_iter().map(|(outcome, calls)| {
            let told = words::outcome(outcome).to_string();
            [outcome.to_string(), told, calls.to_string()]
        });
        table(out, columns, rows);
    }

    /// How many calls ended with each outcome that occurs.
    fn outcomes(&self) -> BTreeMap<u16, usize> {
        let mut outcomes = BTreeMap::new();
        for state in self.trace.end.states() {
            if let Some(receipt) = state.receipt() {
                *outcomes.entry(receipt.outcome.number()).or_insert(0) += 1;
            }
        }
        outcomes
    }

    fn cancels(&self) -> usize {
        let cancelled = self
            .spans
            .iter()
            .filter(|span| span.end == SpanEnd::Cancelled);
        cancelled.count()
    }

    /// How many workers began a call.
    fn workers(&self) -> usize {
        let workers: BTreeSet<usize> = self.spans.iter().map(|span| span.worker).collect();
        workers.len()
    }

    /// The picture of workers against moves.
    pub fn schedule(&self, out: &mut Markup) {
        out.element("div", &[("class", &"scroll")], |out| {
            out.append(&schedule::markup(&self.trace));
        });
    }

    /// The refused lines, explained.
    pub fn refusals(&self, out: &mut Markup) {
        let lines = self.remarks.iter().filter(|remark| remark.line > 0);
        let number = lines.clone().count();
        if number == 0 {
            paragraph(out, "No line is refused.");
            return;
        }
        let columns = [
            Column::number("line"),
            Column::code("as it was read"),
            Column::number("number"),
            Column::text("in words"),
        ];
        let rows = lines.take(MOST_REMARKS).map(|remark| {
            let (line, number) = (remark.line.to_string(), remark.number.to_string());
            [line, shortened(&remark.text), number, remark.words.clone()]
        });
        table(out, columns, rows);
        if number > MOST_REMARKS {
            let more = number - MOST_REMARKS;
            paragraph(
                out,
                format_args!("Refused lines that are not shown: {more}."),
            );
        }
    }
}

/// The beginning of a line, with a mark where it is cut.
fn shortened(line: &str) -> String {
    match line.char_indices().nth(MOST_CHARACTERS) {
        None => line.to_string(),
        Some((end, _)) => format!("{}\u{2026}", &line[..end]),
    }
}
