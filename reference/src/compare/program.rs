//! The program that this implementation is compared with.

use std::io::{self, Write};
use std::process::{Command, ExitStatus, Stdio};
use std::thread;

/// A program that reads standard input and prints its output.
pub struct Program<'a> {
    path: &'a str,
    /// Whether a status other than 0 counts as output, and standard error is shown.
    status_counts: bool,
}

impl Program<'_> {
    /// A program whose status has to be 0.
    pub fn exact(path: &str) -> Program<'_> {
        Program { path, status_counts: true }
    }

    /// A program that may give any status, and may say anything on standard error.
    pub fn of_any_status(path: &str) -> Program<'_> {
        Program { path, status_counts: false }
    }

    /// The standard output, with a line about the program's end if it fails.
    pub fn output_of(&self, input: &[u8]) -> io::Result<Vec<u8>> {
        let errors = if self.status_counts { Stdio::inherit() } else { Stdio::null() };
        let mut command = Command::new(self.path);
        command.stdin(Stdio::piped()).stdout(Stdio::piped()).stderr(errors);
        let mut child = command.spawn()?;
        let stdin = child.stdin.take();
        let output = thread::scope(|scope| {
            scope.spawn(move || {
                // A program that stops reading shows in its output.
                stdin.map(|mut pipe| pipe.write_all(input));
            });
            child.wait_with_output()
        })?;
        let mut bytes = output.stdout;
        if self.fails(output.status) {
            bytes.extend(format!("({})\n", output.status).bytes());
        }
        Ok(bytes)
    }

    /// A program that a signal ends fails in any case.
    fn fails(&self, status: ExitStatus) -> bool {
        status.code().is_none() || self.status_counts && !status.success()
    }
}
