//! The command line tool. It is trusted with nothing: policies, queries and certificates go to the proved engine as words, and what is shown is its reply.

mod asking;
mod citation;
mod cli;
mod commands;
mod failure;
mod reading;
mod show;
mod table;
mod when;

use clap::Parser;
use cli::{Cli, Command};
use std::io::{self, Write};
use std::process::ExitCode;

fn main() -> ExitCode {
    let Cli { command, colour } = Cli::parse();
    let show = show::Show::new(colour);
    let mut out = io::stdout().lock();
    let outcome = match &command {
        Command::Check(arguments) => commands::check::run(arguments, &show, &mut out),
        Command::Fmt(arguments) => commands::fmt::run(arguments, &show, &mut out),
        Command::Words(arguments) => commands::words::run(arguments, &show, &mut out),
        Command::Init(arguments) => commands::init::run(arguments, &show, &mut out),
        Command::File(arguments) => commands::file::run(arguments, &show, &mut out),
        Command::Query(arguments) => commands::query::run(arguments, &show, &mut out),
        Command::Names(arguments) => commands::names::run(arguments, &show, &mut out),
        Command::Log(arguments) => commands::log::run(arguments, &show, &mut out),
        Command::Why(arguments) => commands::why::run(arguments, &show, &mut out),
        Command::Cite(arguments) => commands::cite::run(arguments, &show, &mut out),
        Command::Verify(arguments) => commands::verify::run(arguments, &show, &mut out),
        Command::Test(arguments) => commands::test::run(arguments, &show, &mut out),
        Command::Completions(arguments) => commands::completions::run(arguments, &show, &mut out),
    };
    let outcome = outcome.and_then(|()| out.flush().map_err(failure::Failure::from));
    match outcome {
        Ok(()) => ExitCode::SUCCESS,
        Err(failure) => failure.show(&show),
    }
}
