//! `gimbuka`: one command for people who keep a collection of consents. Every verdict is the proved library's; what reads texts and tells
//! the answers is not proved.

#![forbid(unsafe_code)]

mod arguments;
mod ask;
mod collection;
mod group;
mod input;
mod output;
mod probes;
mod single;
mod slices;
mod trouble;
mod vocabulary;
mod words;

use arguments::{Arguments, Verb};
use clap::error::ErrorKind;
use clap::{CommandFactory, Parser};
use output::{say, Status};
use std::io::{self, Write};
use std::path::Path;
use std::process::ExitCode;
use trouble::Failure;

fn main() -> ExitCode {
    let arguments = match Arguments::try_parse() {
        Ok(arguments) => arguments,
        Err(said) => return usage(&said),
    };
    let dashes =
        arguments::files(&arguments.verb).into_iter().filter(|path| *path == Path::new("-"));
    if dashes.count() > 1 {
        let message = "standard input can be read once, and there are several dashes";
        return usage(&Arguments::command().error(ErrorKind::ArgumentConflict, message));
    }
    let ended = match arguments.verb {
        Verb::Check(asked) => ask::check(asked),
        Verb::Equal(asked) => ask::equal(asked),
        Verb::Possible(asked) => ask::possible(asked),
        Verb::Verify(asked) => single::verify(asked),
        Verb::Vocabulary(asked) => vocabulary::vocabulary(asked),
        Verb::Group(asked) => group::group(asked),
        Verb::Picture(asked) => single::picture(asked),
        Verb::Aloud(asked) => single::aloud(asked),
        Verb::Encode(asked) => single::encode(asked),
        Verb::Decode(asked) => single::decode(asked),
    };
    match ended {
        Ok(status) => ExitCode::from(status as u8),
        Err(failure) => trouble(&failure),
    }
}

/// Help goes to standard output, and what is wrong with the arguments to standard error.
fn usage(said: &clap::Error) -> ExitCode {
    let written = said.print().and_then(|()| io::stdout().flush());
    match written {
        Err(error) if !said.use_stderr() => trouble(&Failure::Output(error)),
        _ if said.use_stderr() => ExitCode::from(Status::Trouble as u8),
        _ => ExitCode::SUCCESS,
    }
}

fn trouble(failure: &Failure) -> ExitCode {
    match failure {
        Failure::Input(complaint) => say(&complaint.to_string()),
        Failure::Other(message) => say(message),
        // Whoever read the pipe wants no more.
        Failure::Output(error) if error.kind() == io::ErrorKind::BrokenPipe => {}
        Failure::Output(error) => say(&format!("the output cannot be written: {error}")),
    }
    ExitCode::from(Status::Trouble as u8)
}
