//! `replayframes show`.
use crate::args::ShowArgs;
use crate::fault::Fault;
use crate::input;
use crate::output::{say, warn, Status, Stop};
use crate::show;
use crate::verdict;

/// Prints the TOML of a configuration's bytes. Those that break a rule are shown with a warning, if they are whole.
pub fn run(args: &ShowArgs) -> Result<Status, Stop> {
    let config = input::compiled(&args.config)?;
    if config.plan.is_none() && input::is_text(&config.bytes) {
        let what = "is text: `show` takes a compiled file (replayframes compile)";
        return Err(Stop::from(Fault::of(&config.file, what)));
    }
    let verdict = verdict::judge(&config).map_err(|broken| broken.text(&config.file));
    match (&config.plan, verdict) {
        (Some(plan), verdict) => {
            verdict.unwrap_or_else(|text| warn(&text));
            say(&show::toml(plan))?;
            Ok(Status::Good)
        }
        (None, verdict) => Err(Stop::Refused(verdict.err().unwrap_or_default())),
    }
}
