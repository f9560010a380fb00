//! Traces, pictures and pages of days.

mod blocks;
mod markup;
mod page;
mod schedule;
mod trace;
mod waits;
mod xml;
