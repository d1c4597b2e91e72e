//! The program: reads the command line, runs the command, and ends with its status.
use clap::Parser;
use replayframes_cli::args::{Arguments, Command};
use replayframes_cli::commands::{bench, check, compile, demo, map, run, show};
use replayframes_cli::output::end;
use std::process::ExitCode;

fn main() -> ExitCode {
    let done = match Arguments::parse().command {
        Command::Check(args) => check::run(&args),
        Command::Compile(args) => compile::run(&args),
        Command::Show(args) => show::run(&args),
        Command::Run(args) => run::run(&args),
        Command::Map(args) => map::run(&args),
        Command::Bench(args) => bench::run(&args),
        Command::Demo(args) => demo::run(&args),
    };
    ExitCode::from(done.unwrap_or_else(end).code())
}
