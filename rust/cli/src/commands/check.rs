//! `replayframes check`.
use crate::args::CheckArgs;
use crate::input;
use crate::output::{say, Status, Stop};
use crate::summary;
use crate::verdict;

/// Says whether a configuration is right.
pub fn run(args: &CheckArgs) -> Result<Status, Stop> {
    let config = input::config(&args.config)?;
    if let Err(broken) = verdict::judge(&config) {
        say(&broken.text(&config.file))?;
        return Ok(Status::Refused);
    }
    let summary = config.plan.as_ref().map_or_else(String::new, summary::text);
    say(&format!("{}: accepted\n\n{summary}", config.file))?;
    Ok(Status::Good)
}
