//! The attribute tools of BeOS, for a store that bestored shares. `docs/be.1` describes the commands.
#![warn(rust_2018_idioms)]

mod activity;
mod attributes;
mod backup;
mod command_line;
mod dates;
mod failure;
mod found;
mod hints;
mod import;
mod indices;
mod kind;
mod output;
mod paths;
mod polling;
mod query;
mod query_text;
mod restore;
mod server;
mod signals;
mod state;
mod status;
mod text;
mod typed_query;
mod unknown;

use attributes::Added;
use clap::error::ErrorKind;
use clap::{CommandFactory, Parser};
use command_line::{AddAttribute, Command, CommandLine, ServerOptions};
use failure::Failure;
use output::Output;
use std::process::ExitCode;

fn main() -> ExitCode {
    let line = CommandLine::try_parse().unwrap_or_else(|error| command_line::exit(&error));
    let CommandLine { server, command } = line;
    let mut output = Output::standard();
    match run(command, &server, &mut output).and_then(|()| output.flush()) {
        Ok(()) => ExitCode::SUCCESS,
        Err(failure) => failure.report(),
    }
}

fn run(command: Command, server: &ServerOptions, output: &mut Output) -> Result<(), Failure> {
    let visit = || server::visit(server);
    match command {
        Command::Query(line) if line.watch => query::run(&mut server::connect(server)?, &line, output),
        Command::Query(line) => query::run(&mut visit()?, &line, output),
        Command::Addattr(line) => {
            let added = read_added(line)?;
            attributes::add(&mut visit()?, &added, output)
        }
        Command::Catattr(line) => attributes::show(&mut visit()?, &line, output),
        Command::Listattr(line) => attributes::list(&mut visit()?, &line, output),
        Command::Rmattr(line) => attributes::remove(&mut visit()?, &line),
        Command::Rmnode(line) => attributes::remove_nodes(&mut visit()?, &line),
        Command::Import(line) => import::run(&|| server::connect(server), &line, output),
        Command::Mkindex(line) => indices::make(&mut visit()?, &line),
        Command::Lsindex(line) => indices::list(&mut visit()?, &line, output),
        Command::Rmindex(line) => indices::remove(&mut visit()?, &line),
        Command::Reindex(line) => indices::fill(&mut server::connect(server)?, &line, output),
        Command::Info(line) => activity::info(&mut visit()?, &line, output),
        Command::Clients(line) => activity::clients(server, &line, output),
        Command::Kick(line) => activity::kick(server, &line),
        Command::Backup(line) => backup::make(&mut server::connect_to_copy(server)?, &line, output),
        Command::Dump => backup::dump(&mut server::connect_to_copy(server)?, output),
        Command::Restore(line) => restore::restore(&mut server::connect(server)?, &line, output),
        Command::Status(line) => status::show(&mut visit()?, &line, output),
    }
}

/// Returns what `addattr` is to do. If the command line is invalid, exits with status 2.
fn read_added(line: AddAttribute) -> Result<Added, Failure> {
    Added::read(line).unwrap_or_else(|wrong| {
        let mut all = CommandLine::command();
        all.build();
        let command = all.find_subcommand_mut("addattr").expect("its line has been read");
        command.error(ErrorKind::WrongNumberOfValues, wrong).exit()
    })
}
