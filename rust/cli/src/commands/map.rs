//! `replayframes map`.
use super::{accepted, apart, items, lend};
use crate::args::MapArgs;
use crate::fault::Fault;
use crate::map::{html, svg, text, Scene};
use crate::output::{say, write, Progress, Status, Stop};
use crate::scene;
use std::path::Path;

/// Draws the host memory of a configuration, after a script if there is one.
pub fn run(args: &MapArgs) -> Result<Status, Stop> {
    let drawing = args.output.as_deref().map(drawing).transpose()?;
    let scene = scene(args)?;
    if let (Some(draw), Some(path)) = (drawing, &args.output) {
        write(path, draw(&scene).as_bytes())?;
    }
    if args.text {
        say(&text(&scene, usize::from(args.columns)))?;
    }
    Ok(Status::Good)
}

/// How to draw for a file, by its name.
fn drawing(path: &Path) -> Result<fn(&Scene) -> String, Stop> {
    match path.extension().and_then(|extension| extension.to_str()) {
        Some("html") => Ok(html),
        Some("svg") => Ok(svg),
        _ => {
            let what = "is neither a page nor a picture: let its name end in .html or .svg";
            Err(Stop::from(Fault::of(&path.display().to_string(), what)))
        }
    }
}

/// The scene after the script.
fn scene(args: &MapArgs) -> Result<Scene, Stop> {
    args.script.as_deref().map_or(Ok(()), |script| apart(&args.config, script))?;
    let config = accepted(&args.config)?;
    let items =
        args.script.as_deref().map_or_else(|| Ok(Vec::new()), |script| items(script, &config.plan))?;
    let mut progress = Progress::new(args.running.progress);
    progress.tell(|| "lending memory to the monitor".to_string());
    let (mut lent, held, note) = lend(&config, args.running.frames)?;
    let fault = |refusal: replayframes::Refusal| Fault::of(&config.file, refusal);
    let mut running = lent.start(&config.bytes).map_err(fault)?;
    for (i, item) in items.iter().enumerate() {
        running.answer(item);
        progress.tell(|| format!("{} of {} answered", i + 1, items.len()));
    }
    progress.tell(|| "drawing".to_string());
    let title = args
        .config
        .file_stem()
        .map_or_else(|| config.file.clone(), |stem| stem.to_string_lossy().into_owned());
    Ok(scene::of(&running.monitor, &config.plan, held, &title, note).map_err(fault)?)
}
