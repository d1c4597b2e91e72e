//! The command line: the commands, their options, and their help.
use clap::{Args, Parser, Subcommand};
use std::path::PathBuf;

/// Which page frames of a server belong to which virtual machine: checks configurations, runs requests against
/// them, and draws who reaches what. Every answer is that of the proved functions.
#[derive(Debug, Parser)]
#[command(name = "replayframes", version)]
#[command(after_help = "Begin with `replayframes demo`, which needs no file.\n\
    Exit status: 0 done, 1 refused, 2 wrong usage or bad input. To `run` and `map` a refused\n\
    configuration is bad input, and a refused request is an answer (0), but for `run --strict` (1).")]
pub struct Arguments {
    #[command(subcommand)]
    pub command: Command,
}

/// What is to be done.
#[derive(Debug, Subcommand)]
pub enum Command {
    /// Says whether a configuration is right, or which rule is broken, where, and what would mend it
    #[command(after_help = "Example: replayframes check truck.toml\n\
        Exit status: 0 accepted, 1 refused, 2 the file cannot be read or is no TOML.")]
    Check(CheckArgs),
    /// Turns a configuration in TOML into the bytes that a monitor starts from
    #[command(after_help = "Example: replayframes compile truck.toml -o truck.bin\n\
        Exit status: 0 written, 1 refused (nothing is written), 2 the file cannot be read or is no TOML.")]
    Compile(CompileArgs),
    /// Turns the bytes of a configuration back into TOML that compiles to the same bytes
    #[command(after_help = "Example: replayframes show truck.bin > truck.toml\n\
        Exit status: 0 shown, 1 the bytes end too early or too late, 2 the file cannot be read or is text.")]
    Show(ShowArgs),
    /// Runs a script of requests against a configuration and prints each answer
    #[command(after_help = "Example: replayframes run truck.toml match.txt\n\
        A line of a script: replay alloc 512 align 512\n\
        Exit status: 0 all answered (a refusal is an answer), 1 one refused with --strict,\n\
        2 bad input (a configuration that is refused too).")]
    Run(RunArgs),
    /// Draws the whole host memory: who is given, reaches and owns what
    #[command(after_help = "Examples: replayframes map truck.toml match.txt -o truck.html\n          \
        replayframes map truck.toml --text\n\
        Exit status: 0 drawn, 2 bad input (a configuration that is refused too).")]
    Map(MapArgs),
    /// Times the main requests on this machine
    #[command(after_help = "Example: replayframes bench --rounds 9\n\
        The figures mean something only on a quiet machine.")]
    Bench(BenchArgs),
    /// Shows a match day in the truck, in which graphics misbehaves: needs no file
    #[command(after_help = "Example: replayframes demo -o match.html\n\
        Prints the requests with their answers and the map, and writes the map as a page.")]
    Demo(DemoArgs),
}

/// The options of `check`.
#[derive(Debug, Args)]
pub struct CheckArgs {
    /// The configuration, in TOML, or in bytes if its name ends in .bin; `-` is standard input
    pub config: PathBuf,
}

/// The options of `compile`.
#[derive(Debug, Args)]
pub struct CompileArgs {
    /// The configuration in TOML; `-` is standard input
    pub config: PathBuf,
    /// The file to write
    #[arg(short, long)]
    pub output: PathBuf,
}

/// The options of `show`.
#[derive(Debug, Args)]
pub struct ShowArgs {
    /// The compiled configuration; `-` is standard input
    pub config: PathBuf,
}

/// What running requests needs.
#[derive(Debug, Args)]
pub struct Running {
    /// How many of the pool's frames have memory in this run, 4 KiB each; those beyond are reserved
    #[arg(long, value_name = "N", default_value_t = 65_536)]
    pub frames: u64,
    /// Tells on standard error how far the work is, though that is no terminal
    #[arg(long)]
    pub progress: bool,
}

/// The options of `run`.
#[derive(Debug, Args)]
pub struct RunArgs {
    /// The configuration, in TOML, or in bytes if its name ends in .bin
    pub config: PathBuf,
    /// The script; `-` is standard input
    pub script: PathBuf,
    /// Prints each answer as a JSON object on a line of its own
    #[arg(long)]
    pub json: bool,
    /// Ends with status 1 if a request is refused
    #[arg(long)]
    pub strict: bool,
    #[command(flatten)]
    pub running: Running,
}

/// The options of `map`.
#[derive(Debug, Args)]
pub struct MapArgs {
    /// The configuration, in TOML, or in bytes if its name ends in .bin
    pub config: PathBuf,
    /// The script to run before; `-` is standard input
    pub script: Option<PathBuf>,
    /// The file to write: a page if its name ends in .html, a picture if in .svg
    #[arg(short, long, required_unless_present = "text")]
    pub output: Option<PathBuf>,
    /// Prints the map in plain text
    #[arg(long)]
    pub text: bool,
    /// How wide the plain text may be
    #[arg(long, value_name = "N", default_value_t = 80, value_parser = clap::value_parser!(u16).range(40..=1000))]
    pub columns: u16,
    #[command(flatten)]
    pub running: Running,
}

/// The options of `bench`.
#[derive(Debug, Args)]
pub struct BenchArgs {
    /// How often each row is timed; the median is told
    #[arg(long, value_name = "N", default_value_t = 5, value_parser = clap::value_parser!(u16).range(1..=99))]
    pub rounds: u16,
    /// Tells on standard error how far the work is, though that is no terminal
    #[arg(long)]
    pub progress: bool,
}

/// The options of `demo`.
#[derive(Debug, Args)]
pub struct DemoArgs {
    /// The page to write: its name ends in .html
    #[arg(short, long, default_value = "replayframes-demo.html")]
    pub output: PathBuf,
}
