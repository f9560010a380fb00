//! The trace beside the runner's console.

use desk::trace::{play, Deed, Done, Line, Span, SpanEnd, Trace};
use runner::console::{closing, register};
use runner::examples::example;
use runner::execute::{Outcome, Place, Receipt};
use runner::generate::{large_cases, small_cases, Case};
use runner::limits::MAX_WORKERS;
use runner::machine::{open, Move, Opened};

fn opened(bytes: &[u8]) -> Opened {
    open(bytes, MAX_WORKERS).expect("the block is good")
}

fn block_p() -> Opened {
    opened(&example("p").expect("P is an example").block())
}

/// What REGISTER prints, told by a trace.
fn printed(trace: &Trace) -> String {
    let refused = trace.refused();
    let lines: String = refused
        .map(|(line, _, number)| format!("r {line} {number}\n"))
        .collect();
    let sheet = match trace.end.receipts() {
        Some(receipts) => closing(trace.end.cells(), receipts),
        None => "r 0 27\n".to_string(),
    };
    lines + &sheet
}

/// The finished calls of a trace as REGISTER's `t` lines, by call.
fn receipts(trace: &Trace) -> String {
    let mut told: Vec<(usize, Receipt)> = Vec::new();
    for (_, done) in trace.accepted() {
        if let Deed::Finished(_, receipt) = done.deed {
            told.push((done.call, receipt));
        }
    }
    told.sort_by_key(|(call, _)| *call);
    let line = |(call, receipt): (usize, Receipt)| {
        format!("t {call} {} {}\n", receipt.outcome.number(), receipt.count)
    };
    told.into_iter().map(line).collect()
}

fn agrees(case: &Case) {
    let Ok(opened) = open(&case.block, MAX_WORKERS) else {
        return;
    };
    let trace = play(&opened, &case.input);
    let expected = register(&case.block, &case.input);
    assert_eq!(printed(&trace), expected);
    if trace.end.receipts().is_some() {
        assert!(expected.ends_with(&receipts(&trace)));
    }
    spans_hold_every_accepted_move(&trace);
}

fn spans_hold_every_accepted_move(trace: &Trace) {
    let spans = trace.spans();
    let moves = |span: &Span| 1 + span.steps + usize::from(span.end == SpanEnd::Cancelled);
    let held: usize = spans.iter().map(moves).sum();
    assert_eq!(held, trace.accepted().count());
    for worker in 0..MAX_WORKERS {
        let own: Vec<&Span> = spans.iter().filter(|span| span.worker == worker).collect();
        assert!(own.windows(2).all(|pair| pair[0].last < pair[1].first));
    }
}

#[test]
fn agrees_with_the_console_on_small_cases() {
    small_cases(7, 400).iter().for_each(agrees);
}

#[test]
fn agrees_with_the_console_on_large_cases() {
    large_cases(9, 9).iter().for_each(agrees);
}

#[test]
fn tells_each_move_of_a_call() {
    let opened = block_p();
    let trace = play(
        &opened,
        b"b 2 0\ns 2\ns 2\nc 2\nb 1 0\ns 1\ns 1\ns 1\ns 1\n",
    );
    let deeds: Vec<Deed> = trace.accepted().map(|(_, done)| done.deed).collect();
    let receipt = Receipt {
        outcome: Outcome::Done,
        count: 2,
    };
    let expected = [
        Deed::Begun,
        Deed::Stepped(Place::Entry),
        Deed::Stepped(Place::At(0)),
        Deed::Cancelled(Place::At(1)),
        Deed::Begun,
        Deed::Stepped(Place::Entry),
        Deed::Stepped(Place::At(0)),
        Deed::Stepped(Place::At(1)),
        Deed::Finished(Place::At(2), receipt),
    ];
    assert_eq!(deeds, expected);
    let ends: Vec<(usize, usize, usize, usize, SpanEnd)> = trace
        .spans()
        .iter()
        .map(|span| (span.worker, span.first, span.last, span.steps, span.end))
        .collect();
    let second = (1, 5, 9, 4, SpanEnd::Finished(receipt));
    assert_eq!(ends, [(2, 1, 4, 2, SpanEnd::Cancelled), second]);
}

#[test]
fn tells_refused_lines() {
    let opened = block_p();
    let trace = play(&opened, b"b 1 1\n\nb 0 0\ns 8\ns 1");
    let begin = |worker, call| Some(Move::Begin { worker, call });
    let begun = Done {
        worker: 0,
        call: 0,
        deed: Deed::Begun,
    };
    let line = |chosen, answer| Line { chosen, answer };
    let expected = [
        line(begin(1, 1), Err(25)),
        line(None, Err(0)),
        line(begin(0, 0), Ok(begun)),
        line(Some(Move::Step { worker: 8 }), Err(21)),
        line(Some(Move::Step { worker: 1 }), Err(26)),
    ];
    assert_eq!(trace.lines, expected);
    let spans = trace.spans();
    assert_eq!((spans[0].last, spans[0].end), (5, SpanEnd::Running));
}

#[test]
fn no_moves_leave_the_opening() {
    let opened = block_p();
    let trace = play(&opened, b"");
    assert!(trace.lines.is_empty() && trace.spans().is_empty());
    assert_eq!(printed(&trace), "r 0 27\n");
}
