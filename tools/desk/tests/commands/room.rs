//! A directory of its own for each test, and the program run in it.

use std::ffi::OsStr;
use std::fs::{self, DirEntry};
use std::io::Write;
use std::os::unix::fs::symlink;
use std::path::PathBuf;
use std::process::{Command, Stdio};
use std::sync::atomic::{AtomicUsize, Ordering};

/// The program.
const DESK: &str = env!("CARGO_BIN_EXE_desk");

static ROOMS: AtomicUsize = AtomicUsize::new(0);

/// A directory that goes when the test ends.
pub struct Room(PathBuf);

/// What the program left.
#[derive(Debug, PartialEq, Eq)]
pub struct Answer {
    pub status: i32,
    pub output: String,
    pub error: String,
}

impl Room {
    pub fn new() -> Room {
        let number = ROOMS.fetch_add(1, Ordering::Relaxed);
        let name = format!("desk-test-{}-{number}", std::process::id());
        let path = std::env::temp_dir().join(name);
        fs::create_dir_all(&path).expect("a directory can be made");
        Room(path)
    }

    /// The room with a file in it.
    pub fn with(self, name: &str, bytes: impl AsRef<[u8]>) -> Room {
        fs::write(self.0.join(name), bytes).expect("a file can be written");
        self
    }

    /// The room with a second name for a file.
    pub fn linked(self, name: &str, second: &str) -> Room {
        fs::hard_link(self.0.join(name), self.0.join(second)).expect("a file can be linked");
        self
    }

    /// The room with a link to a file.
    pub fn pointed(self, name: &str, link: &str) -> Room {
        symlink(name, self.0.join(link)).expect("a link can be made");
        self
    }

    /// The path of a file.
    pub fn path(&self, name: &str) -> PathBuf {
        self.0.join(name)
    }

    /// The names of all files, in order.
    pub fn names(&self) -> Vec<String> {
        let entries = fs::read_dir(&self.0).expect("the directory can be listed");
        let name = |entry: DirEntry| entry.file_name().to_string_lossy().into_owned();
        let names = entries.map(|entry| name(entry.expect("an entry can be read")));
        let mut names: Vec<String> = names.collect();
        names.sort();
        names
    }

    /// The bytes of a file, if it is there.
    pub fn file(&self, name: &str) -> Option<Vec<u8>> {
        fs::read(self.0.join(name)).ok()
    }

    /// Runs `desk` in the room.
    pub fn desk<A: AsRef<OsStr>>(&self, arguments: &[A]) -> Answer {
        self.desk_reading(arguments, b"")
    }

    /// Runs `desk` in the room where no file can grow beyond a kilobyte.
    pub fn desk_without_room<A: AsRef<OsStr>>(&self, arguments: &[A]) -> Answer {
        let mut shell = Command::new("bash");
        shell.args(["-c", "trap '' XFSZ; ulimit -f 1; exec \"$0\" \"$@\""]);
        self.run(shell.arg(DESK).args(arguments), b"")
    }

    /// Runs `desk` in the room with bytes on standard input.
    pub fn desk_reading<A: AsRef<OsStr>>(&self, arguments: &[A], input: &[u8]) -> Answer {
        self.run(Command::new(DESK).args(arguments), input)
    }

    fn run(&self, command: &mut Command, input: &[u8]) -> Answer {
        let mut child = command
            .current_dir(&self.0)
            .stdin(Stdio::piped())
            .stdout(Stdio::piped())
            .stderr(Stdio::piped())
            .spawn()
            .expect("the program starts");
        let mut stdin = child.stdin.take().expect("the input is piped");
        // A program that ends without reading closes the pipe.
        let _ = stdin.write_all(input);
        drop(stdin);
        let output = child.wait_with_output().expect("the program ends");
        Answer {
            status: output.status.code().expect("the program exits"),
            output: String::from_utf8(output.stdout).expect("the output is text"),
            error: String::from_utf8(output.stderr).expect("the error is text"),
        }
    }
}

impl Drop for Room {
    fn drop(&mut self) {
        // A directory that is left over hurts no other test.
        let _ = fs::remove_dir_all(&self.0);
    }
}

impl Answer {
    /// Asserts success and answers what was printed.
    pub fn printed(self) -> String {
        assert_eq!((self.status, self.error.as_str()), (0, ""));
        self.output
    }

    /// Asserts a failure that printed nothing and answers what was told.
    pub fn told(self, status: i32) -> String {
        assert_eq!((self.status, self.output.as_str()), (status, ""));
        self.error
    }
}
