//! Runs a block on three workers and writes its closing sheet to standard
//! output: `three_workers BLOCK > SHEET`. Each worker in turn takes the first
//! waiting call that begins, or makes a step of the call that it holds.

use std::error::Error;
use std::io::{self, Write};
use std::{env, fs};

use zumbiqa::{Answer, Run};

const WORKERS: usize = 3;

fn main() -> Result<(), Box<dyn Error>> {
    let path = env::args_os().nth(1).ok_or("usage: three_workers BLOCK")?;
    let block = fs::read(path)?;
    let mut run = Run::open(&block, WORKERS)?;
    while !run.is_finished() {
        for worker in 0..WORKERS {
            take_turn(&mut run, worker)?;
        }
    }
    io::stdout().write_all(&run.sheet()?)?;
    Ok(())
}

fn take_turn(run: &mut Run, worker: usize) -> Result<(), Answer> {
    if run.held(worker).is_some() {
        return run.step(worker);
    }
    for call in 0..run.calls() {
        match run.begin(worker, call) {
            Ok(()) => break,
            Err(Answer::NotWaiting | Answer::EarlierUnfinished) => continue,
            Err(answer) => return Err(answer),
        }
    }
    Ok(())
}
