//! How a call ends: its status, or what was in its way.

use std::io::{self, Write};

/// Every table has a gate, every certificate holds, or all was done.
pub const DONE: u8 = 0;
/// A table has no gate, or a certificate does not hold.
pub const NO_GATE: u8 = 1;
/// The command was called in a wrong way.
pub const USAGE: u8 = 2;
/// A table is given up so far.
pub const OPEN: u8 = 3;
/// Something could not be read or written.
pub const FAILED: u8 = 4;

/// What ends a call early.
#[derive(Debug, PartialEq, Eq)]
pub enum Trouble {
    /// A wrong call, in words.
    Usage(String),
    /// Input or output, in words.
    Failed(String),
    /// Whoever read the output has stopped: nothing is said.
    Closed,
}

impl Trouble {
    pub fn usage<T>(what: impl Into<String>) -> Result<T, Trouble> {
        Err(Trouble::Usage(what.into()))
    }

    /// An error at a file, or at standard input or output, by its name.
    pub fn at(name: &str) -> impl Fn(io::Error) -> Trouble + '_ {
        move |error| match error.kind() {
            io::ErrorKind::BrokenPipe => Trouble::Closed,
            _ => Trouble::Failed(format!("{name}: {error}")),
        }
    }

    /// Tells it on standard error, and gives the status.
    pub fn tell(self) -> u8 {
        // Where standard error is closed too, the status is all that is left to tell.
        match self {
            Trouble::Usage(what) => {
                let _ = writeln!(io::stderr(), "threshold: {what}\nthreshold --help shows what can be asked");
                USAGE
            }
            Trouble::Failed(what) => {
                let _ = writeln!(io::stderr(), "threshold: {what}");
                FAILED
            }
            Trouble::Closed => FAILED,
        }
    }
}

/// Writes to standard output, and sees it through.
pub fn say(bytes: impl AsRef<[u8]>) -> Result<(), Trouble> {
    let mut output = io::stdout().lock();
    output.write_all(bytes.as_ref()).and_then(|()| output.flush()).map_err(Trouble::at("standard output"))
}
