//! The commands, each of which says how it ends.
pub mod bench;
pub mod check;
pub mod compile;
pub mod demo;
pub mod map;
pub mod run;
pub mod show;

use crate::fault::Fault;
use crate::input::{self, Config};
use crate::output::Stop;
use crate::plan::Plan;
use crate::running::{simulated, Lent};
use crate::script::{self, Item};
use crate::verdict;
use std::path::Path;

/// A configuration that was accepted, with its plan.
pub struct Accepted {
    pub file: String,
    pub bytes: Vec<u8>,
    pub plan: Plan,
}

/// The configuration in a file, which must be accepted: a refusal is a bad input to a command that runs it.
fn accepted(path: &Path) -> Result<Accepted, Stop> {
    accept(input::config(path)?)
}

/// A configuration that must be accepted.
fn accept(config: Config) -> Result<Accepted, Stop> {
    if let Err(broken) = verdict::judge(&config) {
        return Err(Stop::Unfit(broken.text(&config.file)));
    }
    let Config { file, bytes, plan } = config;
    match plan {
        Some(plan) => Ok(Accepted { file, bytes, plan }),
        None => Err(Stop::from(Fault::of(&file, "its bytes were accepted and cannot be read"))),
    }
}

/// Standard input is not both the configuration and the script.
fn apart(config: &Path, script: &Path) -> Result<(), Stop> {
    let input = Path::new(input::STANDARD);
    if config == input && script == input {
        let what = "standard input can be the configuration or the script, not both";
        return Err(Stop::from(Fault::of(input::STANDARD, what)));
    }
    Ok(())
}

/// The items of a script in a file.
fn items(path: &Path, plan: &Plan) -> Result<Vec<Item>, Stop> {
    Ok(script::read(&input::name(path), &input::script(path)?, plan)?)
}

/// The memory for a run, how many frames have theirs, and what is to be said of it.
fn lend(config: &Accepted, frames: u64) -> Result<(Lent, u64, Option<String>), Stop> {
    let (held, note) = simulated(&config.plan, frames);
    let lent = Lent::new(&config.plan, held).map_err(|wrong| Fault::of(&config.file, wrong))?;
    Ok((lent, held, note))
}
