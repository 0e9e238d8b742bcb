//! The program `normal` as an executable: bytes to its standard input, bytes from its standard
//! output. GIGORCHID_NORMAL names it; a relative path starts at this package.

use crate::calls::Program;
use std::io::Write;
use std::path::{Path, PathBuf};
use std::process::{Command, Output, Stdio};

/// The executable.
pub struct Executable {
    path: PathBuf,
}

impl Executable {
    pub fn new() -> Executable {
        let path = std::env::var("GIGORCHID_NORMAL").unwrap_or("../target/bin/normal".to_string());
        Executable { path: Path::new(env!("CARGO_MANIFEST_DIR")).join(path) }
    }

    /// The program, to be started as it is.
    pub fn command(&self) -> Command {
        Command::new(&self.path)
    }

    /// The program where no file may grow above that many blocks of 512 bytes: a write past them
    /// fails, and sends no signal.
    pub fn command_within(&self, blocks: u32) -> Command {
        let mut command = Command::new("sh");
        command.arg("-c").arg(r#"trap "" XFSZ; ulimit -f "$1"; exec "$0""#);
        command.arg(&self.path).arg(blocks.to_string());
        command
    }
}

impl Default for Executable {
    fn default() -> Executable {
        Executable::new()
    }
}

/// What a command leaves that is given those bytes to read. The program may stop reading once the
/// input is too long.
pub fn run(mut command: Command, input: &[u8]) -> Output {
    let mut child =
        command.stdin(Stdio::piped()).stderr(Stdio::piped()).spawn().expect("the program starts");
    let mut stdin = child.stdin.take().expect("asked for");
    std::thread::scope(|scope| {
        scope.spawn(move || stdin.write_all(input).ok());
        child.wait_with_output().expect("the program ends")
    })
}

/// Where it can read and write, the program says nothing on standard error.
impl Program for Executable {
    fn print(&self, input: &[u8]) -> Vec<u8> {
        let mut command = self.command();
        command.stdout(Stdio::piped());
        let output = run(command, input);
        assert_eq!(output.status.code(), Some(0), "how the program ended");
        assert_eq!(String::from_utf8_lossy(&output.stderr), "");
        output.stdout
    }
}
