//! The command `threshold`: whether one threshold gate can carry a Boolean function, asked and answered as people write.
//!
//! It decides nothing itself: every verdict, and every check of a certificate, is the proved library's. What is done here is reading and
//! writing: tables from hex digits, binary digits and expressions, and verdicts as text.

mod certificate;
mod check;
mod columns;
mod decide;
mod expression;
mod files;
mod help;
mod known;
mod line;
mod list;
mod many;
mod numbers;
mod on;
mod options;
mod pack;
mod request;
mod stream;
mod trouble;
mod values;
mod words;
mod written;

use request::Request;
use std::process::ExitCode;
use trouble::Trouble;

fn main() -> ExitCode {
    ExitCode::from(run().unwrap_or_else(Trouble::tell))
}

fn run() -> Result<u8, Trouble> {
    let arguments: Result<Vec<String>, _> = std::env::args_os().skip(1).map(|argument| argument.into_string()).collect();
    let arguments = arguments.map_err(|argument| Trouble::Usage(format!("{argument:?} is not UTF-8")))?;
    match Request::read(&arguments)? {
        Request::Help => trouble::say(help::TEXT).map(|()| trouble::DONE),
        Request::Version => trouble::say(help::VERSION).map(|()| trouble::DONE),
        Request::Decide(asked) => decide::decide(&asked),
        Request::On(asked) => on::carry_on(&asked),
        Request::Check(certificates) => check::check(&certificates),
        Request::Many(asked) => many::run(&asked),
        Request::Pack(file) => pack::pack(file.as_deref()),
        Request::List(file) => list::list(file.as_deref()),
    }
}
