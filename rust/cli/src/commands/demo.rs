//! `replayframes demo`: a match day in the truck, from the files in rust/cli/demo, at most 80 columns wide.
use super::{accept, lend, Accepted};
use crate::args::DemoArgs;
use crate::bytes_form;
use crate::fault::Fault;
use crate::input::Config;
use crate::map::{html, text};
use crate::output::{say, write, Status, Stop};
use crate::running::{Answer, Running};
use crate::scene;
use crate::script::{self, Item, What};
use crate::sentence;
use crate::summary;
use crate::toml_form;
use crate::wrap::wrap;
use std::path::Path;

/// The truck, and what happens in it.
const TRUCK: &str = include_str!("../../demo/truck.toml");
const MATCH: &str = include_str!("../../demo/match.txt");
/// The names of these files.
const TRUCK_FILE: &str = "truck.toml";
const MATCH_FILE: &str = "match.txt";
/// How wide the lines are at most.
const COLUMNS: usize = 80;

/// Shows the match day: the truck, each request with its answer, the map in the end, and the same as a page.
/// The page is written before anything is printed, so that a file that cannot be written is named at once.
pub fn run(args: &DemoArgs) -> Result<Status, Stop> {
    must_be_page(&args.output)?;
    let config = truck()?;
    let items = script::read(MATCH_FILE, MATCH, &config.plan)?;
    let (mut lent, held, note) = lend(&config, config.plan.pool.pages.value)?;
    let fault = |refusal: replayframes::Refusal| Fault::of(TRUCK_FILE, refusal);
    let mut running = lent.start(&config.bytes).map_err(fault)?;
    let played = played(&mut running, &items);
    let title = "The truck after the match";
    let scene = scene::of(&running.monitor, &config.plan, held, title, note).map_err(fault)?;
    write(&args.output, html(&scene).as_bytes())?;
    let written = format!("The same as a page, to be opened in a browser, is in {}.", args.output.display());
    let written = lines(&wrap(&written, COLUMNS, ""));
    say(&format!("{}{played}{}\n{written}", beginning(&config), text(&scene, COLUMNS)))?;
    Ok(Status::Good)
}

/// The file's name says that it is a page.
fn must_be_page(path: &Path) -> Result<(), Stop> {
    if path.extension().map_or(false, |extension| extension == "html") {
        return Ok(());
    }
    let what = "is no page: let its name end in .html";
    Err(Stop::from(Fault::of(&path.display().to_string(), what)))
}

/// The truck's configuration, which the proved check accepts.
fn truck() -> Result<Accepted, Stop> {
    let plan = toml_form::read(TRUCK_FILE, TRUCK)?;
    accept(Config { file: TRUCK_FILE.to_string(), bytes: bytes_form::compile(&plan), plan: Some(plan) })
}

/// What is said before the match.
fn beginning(config: &Accepted) -> String {
    let said = "One server, four machines of four companies that don't trust each other. This is what the \
        configuration gives each of them:";
    format!("{}\n{}\n", lines(&wrap(said, COLUMNS, "")), summary::text(&config.plan))
}

/// Asks what the script says: each item with its answer, and how many were refused. The numbers are the script's lines.
fn played(running: &mut Running, items: &[Item]) -> String {
    let (mut played, mut refused) = (String::new(), 0);
    for item in items {
        let answer = running.answer(item);
        refused += usize::from(matches!(answer, Answer::Refused(..)));
        played += &told(item, &answer);
    }
    let count = items.len();
    played + &format!("{count} calls, of which {refused} were refused. A refusal changes nothing.\n\n")
}

/// An item: its story, its requests, and what happened.
fn told(item: &Item, answer: &Answer) -> String {
    let mut told = wrap(&item.story.join(" "), COLUMNS, "");
    match &item.what {
        What::One(member) => told.push(request(member.line, &member.text)),
        What::List(members) => {
            told.push(request(item.line, &format!("{} begin", item.asker.name)));
            members.iter().for_each(|member| told.push(request(member.line, &format!("  {}", member.text))));
            told.push(request(members.last().map_or(item.line, |member| member.line) + 1, "end"));
        }
    }
    told.extend(wrap(&sentence::of(item, answer), COLUMNS, "       "));
    lines(&told) + "\n"
}

/// The line of a request, behind its number.
fn request(line: usize, text: &str) -> String {
    format!("{line:>4}   {text}")
}

/// Lines as one text.
fn lines(lines: &[String]) -> String {
    lines.iter().map(|line| format!("{line}\n")).collect()
}
