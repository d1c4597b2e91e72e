//! `replayframes compile`.
use crate::args::CompileArgs;
use crate::input;
use crate::number::counted;
use crate::output::{say, write, Status, Stop};
use crate::verdict;

/// Writes the bytes of a configuration that is accepted.
pub fn run(args: &CompileArgs) -> Result<Status, Stop> {
    let config = input::source(&args.config)?;
    if let Err(broken) = verdict::judge(&config) {
        return Err(Stop::Refused(broken.text(&config.file)));
    }
    write(&args.output, &config.bytes)?;
    say(&format!("{}: {}\n", args.output.display(), counted(config.bytes.len() as u64, "byte")))?;
    Ok(Status::Good)
}
