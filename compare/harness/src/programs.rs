//! The built programs, from standard input to standard output.

use std::io::{self, Read, Write};
use std::path::{Path, PathBuf};
use std::process::{Command, Stdio};
use std::thread;

#[derive(Clone, Debug)]
pub struct Programs {
    pub name: String,
    pub sheet: PathBuf,
    pub plan: PathBuf,
}

impl Programs {
    pub fn new(name: &str, sheet: PathBuf, plan: PathBuf) -> Programs {
        Programs { name: name.to_string(), sheet, plan }
    }

    /// Programs of this workspace, which stand beside the running one.
    pub fn beside(name: &str) -> io::Result<Programs> {
        let here = std::env::current_exe()?;
        let path = |program: &str| here.with_file_name(format!("{name}-{program}"));
        Ok(Programs::new(&format!("{name} program"), path("sheet"), path("plan")))
    }

    /// Hands the input over in pieces of that many bytes. A program may stop reading at the limit, so a
    /// closed pipe is no error; a status other than 0 is.
    pub fn run(&self, program: &Path, input: &[u8], piece: usize) -> io::Result<Vec<u8>> {
        let mut child = Command::new(program).stdin(Stdio::piped()).stdout(Stdio::piped()).spawn()?;
        let mut stdin = child.stdin.take().expect("piped");
        let mut stdout = child.stdout.take().expect("piped");
        let mut output = Vec::new();
        thread::scope(|scope| {
            scope.spawn(move || {
                let step = piece.min(input.len().max(1));
                let _ = input.chunks(step).try_for_each(|part| stdin.write_all(part));
            });
            stdout.read_to_end(&mut output)
        })?;
        let status = child.wait()?;
        if !status.success() {
            return Err(io::Error::other(format!("ended with {status}")));
        }
        Ok(output)
    }
}
