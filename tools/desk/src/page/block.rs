//! The parts of a page that tell of the block: its contracts, its calls and who
//! waits for whom.

use runner::block::Function;
use runner::machine::State;

use super::table::{paragraph, stretches, table, Column};
use super::Day;
use crate::markup::Markup;
use crate::{waits, words};

impl Day<'_> {
    /// Each contract with its functions, instruction by instruction.
    pub fn contracts(&self, out: &mut Markup) {
        let functions = &self.opened.block.functions;
        if functions.is_empty() {
            paragraph(out, "The block has no functions.");
        }
        for functions in functions.chunk_by(|one, next| one.contract == next.contract) {
            let contract = functions[0].contract.address();
            out.leaf("h3", &[], format_args!("Contract {contract}"));
            out.element("div", &[("class", &"functions")], |out| {
                for function in functions {
                    self.function(out, function);
                }
            });
        }
    }

    fn function(&self, out: &mut Markup, function: &Function) {
        out.element("article", &[], |out| {
            out.leaf("h4", &[], format_args!("Function {}", function.number));
            let callers = stretches(&self.callers(function));
            out.leaf(
                "p",
                &[("class", &"quiet")],
                format_args!("Calls: {callers}."),
            );
            if function.code.is_empty() {
                paragraph(out, "It has no instructions.");
                return;
            }
            out.element("ol", &[("start", &0)], |out| {
                for instruction in &function.code {
                    out.leaf("li", &[], words::instruction(instruction));
                }
            });
        });
    }

    /// The calls of a function.
    fn callers(&self, function: &Function) -> Vec<usize> {
        let block = &self.opened.block;
        let called = |call: &usize| block.function(&block.calls[*call]) == Some(function);
        (0..block.calls.len()).filter(called).collect()
    }

    /// Each call in words, whom it waits for and how it ended.
    pub fn calls(&self, out: &mut Markup) {
        let opened = self.opened;
        if opened.rows.is_empty() {
            paragraph(out, "The block has no calls.");
            return;
        }
        let columns = [
            Column::number("call"),
            Column::text("in words"),
            Column::text("waits for"),
            Column::text("at the end"),
        ];
        let rows = opened.rows.iter().enumerate().map(|(call, row)| {
            let told = words::call(&opened.block, call);
            [call.to_string(), told, stretches(row), self.state(call)]
        });
        table(out, columns, rows);
    }

    /// How a call stands when the moves end.
    fn state(&self, call: usize) -> String {
        match self.trace.end.states()[call] {
            State::Waiting => "waiting".to_string(),
            State::Running => "running".to_string(),
            State::Finished(receipt) => {
                let number = receipt.outcome.number();
                format!("{number}: {}", words::outcome(number))
            }
        }
    }

    /// The picture of who waits for whom.
    pub fn order(&self, out: &mut Markup) {
        let words = "A call waits for an earlier one if either may write a cell that the other \
                     may read or write.";
        paragraph(out, words);
        out.element("div", &[("class", &"scroll")], |out| {
            out.append(&waits::markup(self.opened))
        });
    }
}
