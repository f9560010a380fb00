//! A run played move by move, with what each line of it did.

use runner::console::{lines, parse};
use runner::execute::{Place, Receipt};
use runner::machine::{Machine, Move, Opened};

/// What an accepted move did.
#[derive(Clone, Copy, Debug, PartialEq, Eq)]
pub enum Deed {
    /// The call was begun.
    Begun,
    /// The call took a step from this place and runs on.
    Stepped(Place),
    /// The call took its last step from this place.
    Finished(Place, Receipt),
    /// The call was given back from this place.
    Cancelled(Place),
}

/// An accepted move: who did what to which call.
#[derive(Clone, Copy, Debug, PartialEq, Eq)]
pub struct Done {
    /// The worker.
    pub worker: usize,
    /// The call that the worker takes or holds.
    pub call: usize,
    /// What happened to it.
    pub deed: Deed,
}

/// A line of the moves.
#[derive(Clone, Copy, Debug, PartialEq, Eq)]
pub struct Line {
    /// The move that it writes; `None` for a line in no form.
    pub chosen: Option<Move>,
    /// What it did, or the number of its refusal, 0 for a line in no form.
    pub answer: Result<Done, u16>,
}

/// A played run.
#[derive(Clone, Debug)]
pub struct Trace<'a> {
    /// The lines in their order; the first has number 1.
    pub lines: Vec<Line>,
    /// The run behind the last line.
    pub end: Machine<'a>,
}

/// How the time of a call on a worker ended.
#[derive(Clone, Copy, Debug, PartialEq, Eq)]
pub enum SpanEnd {
    /// With the call's receipt.
    Finished(Receipt),
    /// The call was cancelled.
    Cancelled,
    /// The moves ended before.
    Running,
}

/// The time of a call on a worker, from its begin on.
#[derive(Clone, Copy, Debug, PartialEq, Eq)]
pub struct Span {
    /// The worker.
    pub worker: usize,
    /// The call.
    pub call: usize,
    /// The number of the line that began it.
    pub first: usize,
    /// The number of the line that ended it, or of the last line of all.
    pub last: usize,
    /// How many steps it took.
    pub steps: usize,
    /// How it ended.
    pub end: SpanEnd,
}

/// Plays moves on an opened block. The lines are read as REGISTER reads them.
pub fn play<'a>(opened: &'a Opened, moves: &[u8]) -> Trace<'a> {
    let mut end = Machine::new(opened);
    let lines = lines(moves).map(|line| play_line(&mut end, line)).collect();
    Trace { lines, end }
}

fn play_line(machine: &mut Machine, line: &[u8]) -> Line {
    let chosen = parse(line);
    let answer = chosen.ok_or(0).and_then(|chosen| make(machine, chosen));
    Line { chosen, answer }
}

/// Makes a move and tells what it did, or the number of its refusal.
fn make(machine: &mut Machine, chosen: Move) -> Result<Done, u16> {
    let before = standing(machine, chosen);
    machine.apply(chosen).map_err(|refusal| refusal.number())?;
    let (worker, call, place) = before.expect("an accepted move is of a call");
    let deed = match chosen {
        Move::Begin { .. } => Deed::Begun,
        Move::Cancel { .. } => Deed::Cancelled(place),
        Move::Step { .. } => match machine.states()[call].receipt() {
            Some(receipt) => Deed::Finished(place, receipt),
            None => Deed::Stepped(place),
        },
    };
    Ok(Done { worker, call, deed })
}

/// The worker and the call of a move, and where the call stands before it.
fn standing(machine: &Machine, chosen: Move) -> Option<(usize, usize, Place)> {
    match chosen {
        Move::Begin { worker, call } => Some((worker, call, Place::Entry)),
        Move::Step { worker } | Move::Cancel { worker } => {
            let held = machine.workers().get(worker)?.as_ref()?;
            Some((worker, held.call, held.running.place))
        }
    }
}

impl Trace<'_> {
    /// The accepted moves with the numbers of their lines.
    pub fn accepted(&self) -> impl Iterator<Item = (usize, Done)> + '_ {
        self.numbered()
            .filter_map(|(number, line)| Some((number, line.answer.ok()?)))
    }

    /// The refused lines: line number, its move, the number of the refusal.
    pub fn refused(&self) -> impl Iterator<Item = (usize, Option<Move>, u16)> + '_ {
        self.numbered()
            .filter_map(|(number, line)| Some((number, line.chosen, line.answer.err()?)))
    }

    fn numbered(&self) -> impl Iterator<Item = (usize, &Line)> {
        (1..).zip(&self.lines)
    }

    /// The times of calls on workers, in the order of their begins.
    pub fn spans(&self) -> Vec<Span> {
        let mut spans: Vec<Span> = Vec::new();
        let mut open = vec![None; self.end.workers().len()];
        for (number, Done { worker, call, deed }) in self.accepted() {
            if deed == Deed::Begun {
                open[worker] = Some(spans.len());
                spans.push(Span {
                    worker,
                    call,
                    first: number,
                    last: self.lines.len(),
                    steps: 0,
                    end: SpanEnd::Running,
                });
            } else if let Some(index) = open[worker] {
                spans[index].extend(number, deed);
            }
        }
        spans
    }
}

impl Span {
    /// Adds a step or the end of the span, made at a line.
    fn extend(&mut self, number: usize, deed: Deed) {
        self.steps += usize::from(matches!(deed, Deed::Stepped(_) | Deed::Finished(..)));
        self.end = match deed {
            Deed::Begun | Deed::Stepped(_) => return,
            Deed::Finished(_, receipt) => SpanEnd::Finished(receipt),
            Deed::Cancelled(_) => SpanEnd::Cancelled,
        };
        self.last = number;
    }
}
