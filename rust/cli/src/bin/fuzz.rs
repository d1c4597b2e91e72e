//! Puts mutated configurations and scripts to the tool, in this process: each is read, compiled, checked, shown, run
//! and drawn, and nothing may panic, take long, or contradict itself. Run it in rust/cli:
//!
//!     cargo run --bin fuzz -- SECONDS [SEED]
//!
//! Before each input is tried it is written to target/fuzz/current, so that it is there if the process dies. An input
//! that panics or takes long is kept beside it, and the exit status is 1.
use replayframes_cli::input::Config;
use replayframes_cli::map;
use replayframes_cli::plan::Plan;
use replayframes_cli::running::Lent;
use replayframes_cli::script::Item;
use replayframes_cli::{answers, bytes_form, scene, script, sentence, show, summary, toml_form, verdict};
use std::fs;
use std::io;
use std::panic;
use std::path::{Path, PathBuf};
use std::process::ExitCode;
use std::sync::atomic::{AtomicUsize, Ordering};
use std::sync::mpsc::{channel, Receiver, Sender};
use std::thread;
use std::time::{Duration, Instant};

/// Where the inputs are that are mutated, the demo's files among them, and where those are kept that are tried.
const CORPUS: &str = "fuzz/corpus";
const DEMO: &str = "demo";
const KEPT: &str = "target/fuzz";
/// How long an input may take.
const PATIENCE: Duration = Duration::from_secs(10);
/// How many mutations an input has at most, and how many bytes.
const MOST_MUTATIONS: u64 = 4;
const MOST_BYTES: usize = 1 << 18;
/// How many pages a pool may have that is run, and how many frames of it have memory.
const MOST_PAGES: u64 = 1 << 16;
const FRAMES: u64 = 64;
/// How many columns a drawing has.
const COLUMNS: usize = 80;
/// Numbers at which something begins or ends.
const NUMBERS: [u64; 12] = [0, 1, 2, 31, 64, 4095, 4096, 65_535, 1 << 52, i64::MAX as u64, 1 << 63, u64::MAX];
/// Words that mean something in one of the forms.
const WORDS: [&str; 12] = [
    "[[",
    "]]",
    "[pool]",
    "= ",
    "\"",
    "#",
    "\n",
    "begin\n",
    "end\n",
    "-1",
    "18446744073709551616",
    "machine.",
];

/// How many panics there were, in any thread.
static PANICS: AtomicUsize = AtomicUsize::new(0);

/// What an input is.
#[derive(Clone, Copy, Debug, PartialEq, Eq)]
enum Form {
    Toml,
    Bytes,
    Script,
}

/// The forms, and how the files of each are called.
const FORMS: [(Form, &str); 3] = [(Form::Toml, "toml"), (Form::Bytes, "bin"), (Form::Script, "txt")];

/// What came of an input.
enum Outcome {
    Accepted,
    Refused,
    Panicked,
}

/// Numbers that follow from a seed.
struct Random(u64);

impl Random {
    /// The next number.
    fn next(&mut self) -> u64 {
        self.0 = self.0.wrapping_add(0x9e37_79b9_7f4a_7c15);
        let mixed = (self.0 ^ (self.0 >> 32)).wrapping_mul(0xd6e8_feb8_6659_fd93);
        mixed ^ (mixed >> 29)
    }

    /// A number below a bound, which is not 0.
    fn below(&mut self, bound: usize) -> usize {
        (self.next() % bound as u64) as usize
    }

    /// One of these, of which there is at least one.
    fn pick<'a, T>(&mut self, from: &'a [T]) -> &'a T {
        &from[self.below(from.len())]
    }

    /// A range of so many bytes, at most a few of them.
    fn range(&mut self, len: usize) -> std::ops::Range<usize> {
        let start = self.below(len + 1);
        let most = (len - start).min(64);
        start..start + self.below(most + 1)
    }
}

/// Changes an input in one way.
fn mutate(random: &mut Random, bytes: &mut Vec<u8>, other: &[u8]) {
    let range = random.range(bytes.len());
    match random.below(12) {
        0 if !bytes.is_empty() => {
            let at = random.below(bytes.len());
            bytes[at] ^= 1 << random.below(8);
        }
        1 => drop(bytes.drain(range)),
        2 => {
            let piece = bytes[range.clone()].repeat(1 + random.below(40));
            bytes.splice(range, piece);
        }
        3 => {
            let piece = &other[random.range(other.len())];
            bytes.splice(range, piece.iter().copied());
        }
        4 => {
            let number = random.pick(&NUMBERS).to_le_bytes();
            let end = (range.start + *random.pick(&[1, 2, 8])).min(bytes.len());
            bytes[range.start..end].copy_from_slice(&number[..end - range.start]);
        }
        5 => drop(bytes.splice(range.start..range.start, random.pick(&WORDS).bytes())),
        6 => bytes.truncate(range.start.max(bytes.len() / 2)),
        _ => replace_digits(random, bytes),
    }
}

/// Puts another number in the place of a run of digits.
fn replace_digits(random: &mut Random, bytes: &mut Vec<u8>) {
    let from = random.below(bytes.len() + 1);
    let is_digit = |byte: &u8| byte.is_ascii_digit();
    if let Some(start) = bytes[from..].iter().position(is_digit).map(|behind| from + behind) {
        let end =
            bytes[start..].iter().position(|byte| !is_digit(byte)).map_or(bytes.len(), |long| start + long);
        let number = random.pick(&NUMBERS).to_string();
        bytes.splice(start..end, number.bytes());
    }
}

/// What the inputs are mutated from, and what they are tried with.
struct Corpus {
    files: Vec<(Form, Vec<u8>)>,
    truck: Plan,
    scripts: Vec<String>,
}

impl Corpus {
    /// The files of the corpus and the demo, by their names.
    fn read() -> io::Result<Corpus> {
        let entries = fs::read_dir(CORPUS)?.chain(fs::read_dir(DEMO)?);
        let mut paths: Vec<PathBuf> =
            entries.map(|entry| entry.map(|entry| entry.path())).collect::<Result<_, _>>()?;
        paths.sort_by(|one, other| one.file_name().cmp(&other.file_name()));
        let mut files = Vec::new();
        for path in &paths {
            if let Some(form) = form_of(path) {
                files.push((form, fs::read(path)?));
            }
        }
        let texts = files.iter().filter(|(form, _)| *form == Form::Script);
        let scripts = texts.map(|(_, bytes)| String::from_utf8_lossy(bytes).into_owned()).collect();
        let truck = toml_form::read("truck.toml", &fs::read_to_string(Path::new(DEMO).join("truck.toml"))?);
        let truck = truck.map_err(|fault| io::Error::new(io::ErrorKind::InvalidData, fault.to_string()))?;
        Ok(Corpus { files, truck, scripts })
    }

    /// An input: a file of the corpus with a few mutations.
    fn input(&self, random: &mut Random) -> (Form, Vec<u8>) {
        let (form, mut bytes) = random.pick(&self.files).clone();
        for _ in 0..=random.next() % MOST_MUTATIONS {
            let (_, other) = random.pick(&self.files);
            mutate(random, &mut bytes, other);
        }
        bytes.truncate(MOST_BYTES);
        (form, bytes)
    }

    /// Tries an input. Whether it was accepted.
    fn try_input(&self, form: Form, bytes: &[u8]) -> bool {
        match form {
            Form::Toml => {
                let plan = toml_form::read("input.toml", &String::from_utf8_lossy(bytes))
                    .map_err(|fault| fault.to_string());
                plan.map_or(false, |plan| self.try_config(bytes_form::compile(&plan), Some(plan)))
            }
            Form::Bytes => self.try_config(bytes.to_vec(), bytes_form::read(bytes)),
            Form::Script => {
                let text = String::from_utf8_lossy(bytes);
                let items = script::read("input.txt", &text, &self.truck);
                items.map_or(false, |items| run(&self.truck, &[items]))
            }
        }
    }

    /// Tries a configuration. Whether it was accepted.
    fn try_config(&self, bytes: Vec<u8>, plan: Option<Plan>) -> bool {
        let config = Config { file: "input".to_string(), bytes, plan };
        if let Some(plan) = &config.plan {
            let again =
                toml_form::read("shown.toml", &show::toml(plan)).map(|again| bytes_form::compile(&again));
            assert_eq!(again.as_ref(), Ok(&config.bytes), "what is shown compiles to the same bytes");
        }
        match (verdict::judge(&config), &config.plan) {
            (Ok(()), Some(plan)) => {
                assert!(summary::text(plan).ends_with('\n'));
                let scripts =
                    self.scripts.iter().filter_map(|text| script::read("corpus.txt", text, plan).ok());
                run(plan, &scripts.collect::<Vec<_>>())
            }
            (Ok(()), None) => panic!("bytes were accepted that cannot be read"),
            (Err(broken), _) => {
                assert!(broken.text(&config.file).lines().all(|line| line.chars().count() <= COLUMNS));
                false
            }
        }
    }
}

/// Runs scripts against an accepted plan, if it is not too large, and draws what comes of it.
fn run(plan: &Plan, scripts: &[Vec<Item>]) -> bool {
    if plan.pool.pages.value > MOST_PAGES {
        return true;
    }
    let mut lent = Lent::new(plan, FRAMES).expect("there is memory for a small pool");
    let mut running = lent.start(&bytes_form::compile(plan)).expect("an accepted configuration starts");
    for item in scripts.iter().flatten() {
        let answer = running.answer(item);
        let said = [answers::text(item, &answer), answers::json(item, &answer), sentence::of(item, &answer)];
        assert!(said.iter().all(|said| !said.is_empty()));
    }
    running.monitor.check().expect("the memories are sound after any requests");
    let held = plan.pool.pages.value.min(FRAMES);
    let scene =
        scene::of(&running.monitor, plan, held, "fuzz", None).expect("sound memories can be looked at");
    let ordered = |pair: &[map::Span]| pair[0].host + 4096 * (pair[0].pages - 1) < pair[1].host;
    assert!(scene.spans.windows(2).all(ordered), "spans are sorted and apart");
    assert!(map::text(&scene, COLUMNS).lines().all(|line| line.chars().count() <= COLUMNS));
    assert!(
        map::svg(&scene).contains("</svg>") && map::html(&scene).contains("</html>"),
        "drawings are whole"
    );
    true
}

/// The form of a file, by its name.
fn form_of(path: &Path) -> Option<Form> {
    let extension = path.extension()?.to_str()?;
    FORMS.iter().find(|(_, name)| *name == extension).map(|&(form, _)| form)
}

/// Tries each input that comes, and says what came of it.
fn work(corpus: &Corpus, inputs: &Receiver<(Form, Vec<u8>)>, outcomes: &Sender<Outcome>) {
    for (form, bytes) in inputs {
        let before = PANICS.load(Ordering::SeqCst);
        let said = panic::catch_unwind(|| corpus.try_input(form, &bytes));
        let outcome = match said {
            Ok(true) if PANICS.load(Ordering::SeqCst) == before => Outcome::Accepted,
            Ok(false) if PANICS.load(Ordering::SeqCst) == before => Outcome::Refused,
            _ => Outcome::Panicked,
        };
        if outcomes.send(outcome).is_err() {
            return;
        }
    }
}

/// What was counted of a form: inputs, and those accepted.
#[derive(Clone, Copy, Default)]
struct Count {
    tried: u64,
    accepted: u64,
}

/// The inputs that are tried one after the other.
struct Fuzzing {
    corpus: Corpus,
    random: Random,
    counts: [Count; 3],
    crashes: u64,
    ends: Instant,
}

impl Fuzzing {
    /// Tries inputs until the time is over, or one takes long.
    fn go(&mut self, inputs: &Sender<(Form, Vec<u8>)>, outcomes: &Receiver<Outcome>) -> io::Result<()> {
        while Instant::now() < self.ends {
            let (form, bytes) = self.corpus.input(&mut self.random);
            fs::write(Path::new(KEPT).join("current"), &bytes)?;
            let sent = inputs.send((form, bytes.clone())).is_ok();
            match outcomes.recv_timeout(PATIENCE) {
                Ok(outcome) if sent => self.count(form, &bytes, outcome)?,
                _ => return self.keep(form, &bytes, "takes long"),
            }
        }
        Ok(())
    }

    /// Counts what came of an input.
    fn count(&mut self, form: Form, bytes: &[u8], outcome: Outcome) -> io::Result<()> {
        let count = &mut self.counts[form as usize];
        count.tried += 1;
        match outcome {
            Outcome::Accepted => count.accepted += 1,
            Outcome::Refused => {}
            Outcome::Panicked => self.keep(form, bytes, "panics")?,
        }
        Ok(())
    }

    /// Keeps an input that must not be.
    fn keep(&mut self, form: Form, bytes: &[u8], what: &str) -> io::Result<()> {
        self.crashes += 1;
        let path = Path::new(KEPT).join(format!("crash-{}.{}", self.crashes, FORMS[form as usize].1));
        println!("an input that {what}: {}", path.display());
        fs::write(path, bytes)
    }
}

/// Tries inputs for so many seconds, from a seed. How many crashes there were.
fn fuzz(seconds: u64, seed: u64) -> io::Result<u64> {
    fs::create_dir_all(KEPT)?;
    let (corpus, random) = (Corpus::read()?, Random(seed));
    let ends = Instant::now() + Duration::from_secs(seconds);
    let mut fuzzing = Fuzzing { corpus, random, counts: [Count::default(); 3], crashes: 0, ends };
    let corpus = Corpus::read()?;
    let ((inputs, received), (outcomes, told)) = (channel(), channel());
    thread::Builder::new().spawn(move || work(&corpus, &received, &outcomes))?;
    fuzzing.go(&inputs, &told)?;
    for ((_, name), count) in FORMS.iter().zip(fuzzing.counts) {
        println!("{name}: {} inputs, {} accepted", count.tried, count.accepted);
    }
    println!("seed {seed}: {} crashes", fuzzing.crashes);
    Ok(fuzzing.crashes)
}

/// The numbers that the command line has: seconds, and a seed.
fn numbers() -> Option<(u64, u64)> {
    let words: Vec<String> = std::env::args().skip(1).collect();
    let numbers: Vec<u64> = words.iter().map(|word| word.parse().ok()).collect::<Option<_>>()?;
    match numbers[..] {
        [seconds] => Some((seconds, 1)),
        [seconds, seed] => Some((seconds, seed)),
        _ => None,
    }
}

fn main() -> ExitCode {
    let told = panic::take_hook();
    panic::set_hook(Box::new(move |info| {
        PANICS.fetch_add(1, Ordering::SeqCst);
        told(info);
    }));
    match numbers().map(|(seconds, seed)| fuzz(seconds, seed)) {
        Some(Ok(0)) => ExitCode::SUCCESS,
        Some(Ok(_)) => ExitCode::FAILURE,
        Some(Err(error)) => {
            eprintln!("fuzz: run it in rust/cli, where {CORPUS} and {DEMO} are: {error}");
            ExitCode::from(2)
        }
        None => {
            eprintln!("usage: fuzz SECONDS [SEED]");
            ExitCode::from(2)
        }
    }
}
