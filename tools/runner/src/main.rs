//! The commands of the runner.

use std::fs;
use std::io::{self, BufWriter, ErrorKind, Write};
use std::path::Path;
use std::process::ExitCode;

use runner::assemble::assemble;
use runner::console::{closing, read_input, refused_block, register};
use runner::coverage::Coverage;
use runner::generate::loops::Loops;
use runner::generate::sized::{self, Sizes};
use runner::generate::{large_cases, small_cases, Case};
use runner::inspect::inspect;
use runner::limits::MAX_WORKERS;
use runner::literal::modules;
use runner::machine::open;
use runner::serial;
use runner::vectors::{self, blocks::Stream};

const USAGE: &str = "usage:
  runner assemble TEXT BLOCK        writes the block of a text
  runner register BLOCK             REGISTER with the moves on standard input
  runner inspect BLOCK              sizes and waiting rows
  runner serial BLOCK               cells and receipts of the serial run
  runner cases SEED COUNT DIR       small cases as modules of the crate cases
  runner coverage SEED COUNT        what these cases show
  runner generate SEED COUNT DIR [--large]
                                    cases as files NNN.bin, NNN.moves, NNN.out
  runner sized SEED CALLS KEYS LINES STEM
                                    a block of these sizes, run to its end, as files STEM.bin,
                                    STEM.moves, STEM.out
  runner loops CALLS FUEL BLOCK     a block of endless loops; its moves on standard output
  runner vectors open SEED DIR      stdin and stdout of a program that lists many blocks
  runner vectors register SEED DIR  the same for one that runs many blocks
  runner vectors moves SEED COUNT DIR
                                    moves, sheets and serial runs on damaged runs as DIR/stdin,
                                    DIR/stdout
  runner vectors examples DIR       the documents' examples as DIR/stdin, DIR/stdout
  runner vectors files DIR          edges as folders with data/block.bin, stdin, stdout
  runner --help                     this list, also behind any command
";

/// The one option of a command.
const LARGE: &str = "--large";

/// How many cases of moves there are for one of sheets.
const MOVES_TO_SHEETS: usize = 10;

/// How many cases of moves there are for one of serial runs.
const MOVES_TO_SERIAL: usize = 4;

type Failure = Box<dyn std::error::Error>;

fn main() -> ExitCode {
    let arguments: Vec<String> = std::env::args().skip(1).collect();
    let words: Vec<&str> = arguments.iter().map(String::as_str).collect();
    match run(&words) {
        Ok(()) => ExitCode::SUCCESS,
        Err(failure) => {
            eprintln!("runner: {failure}");
            ExitCode::FAILURE
        }
    }
}

fn run(words: &[&str]) -> Result<(), Failure> {
    if words.iter().any(|word| matches!(*word, "--help" | "-h")) {
        return print(USAGE);
    }
    if let Some(option) = words.iter().find(|word| is_unknown_option(word)) {
        return Err(format!("there is no option {option}\n{USAGE}").into());
    }
    match words {
        ["assemble", text, block] => write_assembled(text, block),
        ["register", block] => {
            let input = read_input(io::stdin().lock())?;
            print(&register(&read_block(block)?, &input))
        }
        ["inspect", block] => print(&inspect(&read_block(block)?)),
        ["serial", block] => print(&serial_lines(&read_block(block)?)),
        ["cases", seed, count, directory] => {
            write_modules(&small_cases(seed.parse()?, count.parse()?), directory)
        }
        ["coverage", seed, count] => {
            let cases = small_cases(seed.parse()?, count.parse()?);
            print(&Coverage::of(&cases).table())
        }
        ["generate", seed, count, directory] => {
            write_cases(&small_cases(seed.parse()?, count.parse()?), directory)
        }
        ["generate", seed, count, directory, LARGE] => {
            write_cases(&large_cases(seed.parse()?, count.parse()?), directory)
        }
        ["sized", seed, calls, keys, lines, stem] => {
            let sizes = Sizes {
                calls: calls.parse()?,
                keys: keys.parse()?,
                lines: lines.parse()?,
            };
            Ok(write_case(
                &sized::case(seed.parse()?, sizes)?,
                Path::new(stem),
            )?)
        }
        ["loops", calls, fuel, block] => {
            let loops = Loops {
                calls: calls.parse()?,
                fuel: fuel.parse()?,
            };
            fs::write(block, loops.block()?)?;
            let mut output = BufWriter::new(io::stdout().lock());
            Ok(loops.write_moves(&mut output)?)
        }
        ["vectors", "open", seed, directory] => {
            write_stream(&vectors::blocks::opened(seed.parse()?), directory)
        }
        ["vectors", "register", seed, directory] => {
            write_stream(&vectors::blocks::registered(seed.parse()?), directory)
        }
        ["vectors", "moves", seed, count, directory] => {
            write_vectors(seed.parse()?, count.parse()?, Path::new(directory))
        }
        ["vectors", "examples", directory] => write_stream(&vectors::titled::examples(), directory),
        ["vectors", "files", directory] => write_folders(Path::new(directory)),
        _ => Err(USAGE.into()),
    }
}

/// Whether a word has the form of an option and is none, so that it is not taken
/// for the name of a missing file.
fn is_unknown_option(word: &str) -> bool {
    word.starts_with("--") && word != LARGE
}

/// The bytes of a block file; a missing file is read as empty.
fn read_block(path: &str) -> io::Result<Vec<u8>> {
    match fs::read(path) {
        Err(error) if error.kind() == ErrorKind::NotFound => Ok(Vec::new()),
        read => read,
    }
}

fn print(text: &str) -> Result<(), Failure> {
    let mut output = io::stdout().lock();
    output.write_all(text.as_bytes())?;
    output.flush()?;
    Ok(())
}

fn write_assembled(text: &str, block: &str) -> Result<(), Failure> {
    let bytes = assemble(fs::read(text)?).map_err(|error| format!("{text}:{error}"))?;
    fs::write(block, bytes)?;
    Ok(())
}

/// The k and t lines of the serial run, or the e line.
fn serial_lines(block: &[u8]) -> String {
    match open(block, MAX_WORKERS) {
        Ok(opened) => {
            let end = serial::run(&opened);
            closing(&end.cells, end.ended.iter().map(|ended| ended.receipt))
        }
        Err(refusal) => refused_block(refusal),
    }
}

fn write_modules(cases: &[Case], directory: &str) -> Result<(), Failure> {
    for (name, text) in modules(cases) {
        fs::write(Path::new(directory).join(name).with_extension("antt"), text)?;
    }
    Ok(())
}

fn write_cases(cases: &[Case], directory: &str) -> Result<(), Failure> {
    fs::create_dir_all(directory)?;
    for (index, case) in cases.iter().enumerate() {
        write_case(case, &Path::new(directory).join(format!("{index:03}")))?;
    }
    Ok(())
}

fn write_case(case: &Case, stem: &Path) -> io::Result<()> {
    fs::write(stem.with_extension("bin"), &case.block)?;
    fs::write(stem.with_extension("moves"), &case.input)?;
    fs::write(stem.with_extension("out"), &case.output)
}

fn write_stream(stream: &Stream, directory: &str) -> Result<(), Failure> {
    let written = write_input_and_output(Path::new(directory), &stream.input, &stream.output);
    Ok(written.map_err(|error| format!("{directory}: {error}"))?)
}

fn write_input_and_output(directory: &Path, input: &[u8], output: &[u8]) -> io::Result<()> {
    fs::create_dir_all(directory)?;
    fs::write(directory.join("stdin"), input)?;
    fs::write(directory.join("stdout"), output)
}

fn write_folders(directory: &Path) -> Result<(), Failure> {
    for folder in vectors::files::folders() {
        let written = folder.write(directory);
        let path = directory.join(folder.name);
        written.map_err(|error| format!("{}: {error}", path.display()))?;
    }
    Ok(())
}

fn write_vectors(seed: u64, count: usize, directory: &Path) -> Result<(), Failure> {
    let (mut cases, _) = vectors::moves::cases(seed, count);
    cases.extend(vectors::sheets::cases(seed, count / MOVES_TO_SHEETS));
    cases.extend(vectors::serial::cases(seed, count / MOVES_TO_SERIAL));
    cases.extend(vectors::waits::cases());
    cases.extend(vectors::fuel::cases());
    fs::create_dir_all(directory)?;
    fs::write(directory.join("stdin"), vectors::stream::input(&cases))?;
    fs::write(directory.join("stdout"), vectors::stream::output(&cases))?;
    Ok(())
}
