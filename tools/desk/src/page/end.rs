//! The part of a page that tells of the closing sheet.

use runner::cells::Cells;
use runner::execute::Receipt;
use runner::key::Key;
use runner::limits::FIRST_CONTRACT;

use super::table::{paragraph, table, Column};
use super::Day;
use crate::markup::Markup;
use crate::words;

impl Day<'_> {
    /// The closing sheet as tables, or why there is none.
    pub fn sheet(&self, out: &mut Markup) {
        match self.trace.end.receipts() {
            Some(receipts) => {
                self.cells(out);
                self.receipts(out, &receipts);
            }
            None => self.no_sheet(out),
        }
    }

    fn no_sheet(&self, out: &mut Markup) {
        out.leaf("p", &[("class", &"alarm")], "There is no closing sheet.");
        for remark in self.remarks.iter().filter(|remark| remark.line == 0) {
            paragraph(out, format_args!("{}: {}", remark.number, remark.words));
        }
    }

    /// The cells that are not zero, and those that became zero.
    fn cells(&self, out: &mut Markup) {
        out.leaf("h3", &[], "Cells");
        paragraph(
            out,
            "All cells that are not zero. The next day opens with them.",
        );
        let opening = Cells::opening(&self.opened.block.opening);
        let closing = self.trace.end.cells();
        let columns = [
            Column::text("cell"),
            Column::number("opened with"),
            Column::number("closes with"),
        ];
        let rows = closing.iter().map(|(key, value)| {
            let opened = opening.get(key).to_string();
            [meaning(key), opened, value.to_string()]
        });
        table(out, columns, rows);
        let emptied: Vec<String> = opening
            .iter()
            .filter(|(key, _)| closing.get(key) == 0)
            .map(|(key, value)| format!("{} (opened with {value})", meaning(key)))
            .collect();
        if !emptied.is_empty() {
            let emptied = emptied.join("; ");
            paragraph(
                out,
                format_args!("Now zero, and so not in the sheet: {emptied}."),
            );
        }
    }

    fn receipts(&self, out: &mut Markup, receipts: &[Receipt]) {
        out.leaf("h3", &[], "Receipts");
        let columns = [
            Column::number("call"),
            Column::number("outcome"),
            Column::text("in words"),
            Column::number("instructions"),
        ];
        let rows = receipts.iter().enumerate().map(|(call, receipt)| {
            let outcome = receipt.outcome.number();
            let (told, count) = (words::outcome(outcome), receipt.count);
            [
                call.to_string(),
                outcome.to_string(),
                told.to_string(),
                count.to_string(),
            ]
        });
        table(out, columns, rows);
    }
}

/// What a cell is.
fn meaning(key: &Key) -> String {
    let Key {
        address,
        field,
        a,
        b,
    } = key;
    let owner = if *address < FIRST_CONTRACT {
        "account"
    } else {
        "contract"
    };
    if key.is_balance() {
        format!("balance of {owner} {address}")
    } else {
        format!("field {field} of contract {address} ({a}, {b})")
    }
}
