//! `replayframes run`.
use super::{accepted, apart, items, lend};
use crate::answers;
use crate::args::RunArgs;
use crate::fault::Fault;
use crate::output::{say, warn, Progress, Status, Stop};
use crate::running::Answer;

/// Runs a script against a configuration, and prints each answer.
pub fn run(args: &RunArgs) -> Result<Status, Stop> {
    apart(&args.config, &args.script)?;
    let config = accepted(&args.config)?;
    let items = items(&args.script, &config.plan)?;
    let mut progress = Progress::new(args.running.progress);
    progress.tell(|| "lending memory to the monitor".to_string());
    let (mut lent, _, note) = lend(&config, args.running.frames)?;
    if let Some(note) = note {
        warn(&format!("{note}\n"));
    }
    let mut running = lent.start(&config.bytes).map_err(|refusal| Fault::of(&config.file, refusal))?;
    let mut refused = false;
    for (i, item) in items.iter().enumerate() {
        let answer = running.answer(item);
        refused |= matches!(answer, Answer::Refused(..));
        say(&if args.json { answers::json(item, &answer) } else { answers::text(item, &answer) })?;
        progress.tell(|| format!("{} of {} answered", i + 1, items.len()));
    }
    Ok(if refused && args.strict { Status::Refused } else { Status::Good })
}
