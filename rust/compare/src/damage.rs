//! Memory that holds anything: ours alone, against a plain reading of the words. What each success says
//! of the frames holds for any words; what is exact holds where the summaries agree.
use crate::lent::Lent;
use crate::model::Model;
use crate::report::{grouped, Progress};
use crate::request::{Answer, Reason, Request};
use crate::rng::Rng;
use crate::{ours, random, tree};

/// How many requests each memory is asked.
const REQUESTS: usize = 24;
/// Numbers of words that are no full tree, and how many frames requests to them are made for.
const NO_TREE: [usize; 10] = [0, 2, 3, 15, 16, 18, 272, 274, 4368, 4370];
const NO_TREE_FRAMES: usize = 256;

/// Runs on so many memories of so many words, a full tree.
pub fn run(words: usize, memories: usize) -> Result<String, String> {
    let mut progress = Progress::new(&format!("damaged memories of {words} words"), memories);
    let (mut corrupt, mut sound) = (0, 0);
    for seed in 0..memories {
        progress.at(seed);
        let mut rng = Rng::new(seed as u64 ^ (words as u64) << 32);
        let mut memory = Lent::new(&damaged(&mut rng, words), &mut rng);
        sound += u64::from(tree::first_lie(memory.words()).is_none());
        for _ in 0..REQUESTS {
            let request = random::request(&mut rng, 15 * words + 1);
            let answer =
                step(&mut memory, request).map_err(|fault| format!("seed {seed}, {request:?}: {fault}"))?;
            corrupt += u64::from(answer == Answer::Refused(Reason::Corrupt));
        }
        wipe(&mut memory).map_err(|fault| format!("seed {seed}, reset: {fault}"))?;
    }
    let [memories, corrupt, sound] = [memories as u64, corrupt, sound].map(grouped);
    Ok(format!("{memories} memories, {sound} of them sound at first, {REQUESTS} requests each; corrupt was answered {corrupt} times"))
}

/// Words that are no full tree: every request is refused, and no word changes.
pub fn no_tree() -> Result<String, String> {
    let mut rng = Rng::new(1);
    for length in NO_TREE {
        let words: Vec<u16> = (0..length).map(|_| rng.bits() as u16).collect();
        let mut memory = Lent::new(&words, &mut rng);
        for _ in 0..1000 {
            let request = random::request(&mut rng, NO_TREE_FRAMES);
            let answer = ours::ask(memory.words_mut(), request);
            refused_as_no_tree(&format!("{request:?}"), answer)?;
        }
        refused_as_no_tree("reset", ours::reset(memory.words_mut()).into())?;
        let tree = memory.words();
        let looks = [
            ours::cap(tree).err(),
            ours::count_free(tree).err(),
            ours::any(tree).err(),
            ours::test(tree, 0).err(),
            ours::check(tree).err(),
        ];
        if looks != [Some(Reason::NotFull); 5] {
            return Err(format!("{length} words: the functions that look answer {looks:?}"));
        }
        memory.same_as(&words)?;
    }
    Ok(format!("{} lengths, 1,000 requests each, all refused", NO_TREE.len()))
}

/// The answer for words that are no tree is always the same.
fn refused_as_no_tree(what: &str, answer: Answer) -> Result<(), String> {
    match answer {
        Answer::Refused(Reason::NotFull) => Ok(()),
        _ => Err(format!("{what}: {answer:?} for words that are no tree")),
    }
}

/// How many words a tree has, for every number of frames around the sizes that there are.
pub fn sizes() -> Result<String, String> {
    let powers = (0..16).map(|depth| 16_usize.pow(depth));
    let near = powers.flat_map(|power| power - 1..=power + 1);
    let mut count = 0;
    for frames in (0..70_000).chain(near).chain([usize::MAX - 1, usize::MAX, 1 << 63]) {
        let words =
            (frames > 0).then(|| (frames - 1) / 15).filter(|&words| tree::frames(words) == Some(frames));
        if ours::words_for(frames) != words.ok_or(Reason::NoSize) {
            return Err(format!("{frames} frames: {:?}, not {words:?}", ours::words_for(frames)));
        }
        count += 1;
    }
    Ok(format!("{} numbers of frames", grouped(count)))
}

/// Words of a full tree: any at all, mostly alike, or a sound tree, with a few bits turned or with none.
pub fn damaged(rng: &mut Rng, words: usize) -> Vec<u16> {
    let kind = rng.below(4);
    let some = rng.pick(&[0, 0xffff, 1, 0x8000]);
    let mut memory: Vec<u16> = match kind {
        0 => (0..words).map(|_| rng.bits() as u16).collect(),
        1 => (0..words).map(|_| if rng.once_in(8) { rng.bits() as u16 } else { some }).collect(),
        _ => sound(rng, words),
    };
    if kind == 3 {
        for _ in 0..1 + rng.below(3) {
            memory[rng.small_below(words)] ^= 1 << rng.below(16);
        }
    }
    memory
}

/// The words of a tree with some frames free, whose summaries agree.
fn sound(rng: &mut Rng, words: usize) -> Vec<u16> {
    let share = 1 + rng.below(64);
    let free: Vec<bool> = (0..15 * words + 1).map(|_| rng.below(64) < share).collect();
    let mut memory = vec![0; words];
    tree::renew(&mut memory, &free, 0, free.len());
    memory
}

/// One request: the answer, the words and the frames after it are as the words before it allow.
fn step(memory: &mut Lent<u16>, request: Request) -> Result<Answer, String> {
    let before = memory.words().to_vec();
    let mut model = Model { free: tree::free_frames(&before) };
    looks(&before, &model.free)?;
    let answer = ours::ask(memory.words_mut(), request);
    let lie = tree::first_lie(&before);
    let exact = model.answer(request);
    if answer != exact && !(lie.is_some() && allowed(request, answer, exact, before[0], &model)) {
        return Err(format!("{answer:?}, exact is {exact:?}, the lowest lie in {lie:?}"));
    }
    let change = match request.change(answer) {
        None => return memory.same_as(&before).map(|()| answer),
        Some(change) => change,
    };
    model.free[change.from..change.to].fill(change.free);
    if tree::free_frames(memory.words()) != model.free {
        return Err(format!("{answer:?} changed other frames than {change:?}"));
    }
    if lie.is_none() && tree::first_lie(memory.words()).is_some() {
        return Err(format!("{answer:?} left a summary wrong"));
    }
    memory.is_kept_around().map(|()| answer)
}

/// What a search may answer where a summary lies: corrupt, nothing, or something that is free indeed.
fn allowed(request: Request, answer: Answer, exact: Answer, root: u16, model: &Model) -> bool {
    let searches = matches!(exact, Answer::Frame(_) | Answer::Refused(Reason::NoRoom));
    let may = match (request, answer) {
        (_, Answer::Refused(Reason::Corrupt)) => true,
        (Request::Alloc, Answer::Refused(Reason::NoRoom)) => root == 0,
        (_, Answer::Refused(Reason::NoRoom)) => true,
        (Request::Alloc, Answer::Frame(k)) => is_run(model, k, 1, 0),
        (Request::Next(from), Answer::Frame(k)) => from <= k && is_run(model, k, 1, 0),
        (Request::Run { size, align_log2 }, Answer::Frame(k)) => is_run(model, k, size, align_log2),
        _ => false,
    };
    searches && may
}

/// The frames from k on are a run.
fn is_run(model: &Model, k: usize, size: usize, align_log2: usize) -> bool {
    let aligned = k == 0 || k.trailing_zeros() as usize >= align_log2;
    aligned
        && size <= model.free.len()
        && model.free.get(k..k + size).map_or(false, |run| run.iter().all(|&free| free))
}

/// The functions that only look say what the words say; `free` is which frames are free by the words.
pub fn looks(words: &[u16], free: &[bool]) -> Result<(), String> {
    let count = free.iter().filter(|&&free| free).count();
    let told = (ours::cap(words), ours::count_free(words), ours::any(words), ours::check(words));
    let plain = (Ok(free.len()), Ok(count), Ok(words[0] != 0), Ok(tree::first_lie(words)));
    if told != plain {
        return Err(format!("the functions that look answer {told:?}, and the words say {plain:?}"));
    }
    match (0..free.len()).find(|&k| ours::test(words, k) != Ok(free[k])) {
        None => Ok(()),
        Some(k) => Err(format!("frame {k} is tested wrongly")),
    }
}

/// `reset` makes every word 0, whatever stood there.
fn wipe(memory: &mut Lent<u16>) -> Result<(), String> {
    ours::reset(memory.words_mut()).map_err(|reason| format!("{reason:?}"))?;
    memory.same_as(&vec![0; memory.words().len()])
}
