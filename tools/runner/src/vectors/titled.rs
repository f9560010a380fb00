//! Streams of titled blocks with moves. A case is its title, its block and its
//! moves, each as its length in four bytes, little-endian, and its bytes. For each
//! a program prints `# ` and the title, its listing and what REGISTER prints.

use super::blocks::{put, Stream};
use super::edges;
use crate::console::register;
use crate::examples::EXAMPLES;
use crate::inspect::inspect;

/// Most bytes of a title, which is ASCII.
pub const MAX_TITLE_BYTES: usize = 100;

/// A block with moves under a title.
#[derive(Clone, Debug, PartialEq, Eq)]
pub struct Titled {
    /// The title.
    pub title: String,
    /// The bytes of the block.
    pub block: Vec<u8>,
    /// The bytes of the moves.
    pub moves: Vec<u8>,
}

impl Titled {
    /// What REGISTER prints.
    pub fn registered(&self) -> String {
        register(&self.block, &self.moves)
    }

    /// What `inspect` prints, then what REGISTER prints.
    pub fn listed_and_registered(&self) -> String {
        inspect(&self.block) + &self.registered()
    }
}

/// The examples of the documents, then edges of the input: for each its listing
/// and what REGISTER prints.
pub fn examples() -> Stream {
    stream(&[example_cases(), edges::cases()].concat())
}

/// The examples as titled cases.
pub fn example_cases() -> Vec<Titled> {
    EXAMPLES
        .iter()
        .map(|example| Titled {
            title: example.title(),
            block: example.block(),
            moves: example.moves.into(),
        })
        .collect()
}

fn stream(cases: &[Titled]) -> Stream {
    let mut stream = Stream {
        input: Vec::new(),
        output: Vec::new(),
    };
    for case in cases {
        put(&mut stream.input, case.title.as_bytes());
        put(&mut stream.input, &case.block);
        put(&mut stream.input, &case.moves);
        let text = format!("# {}\n{}", case.title, case.listed_and_registered());
        stream.output.extend_from_slice(text.as_bytes());
    }
    stream
}
