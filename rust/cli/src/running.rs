//! A monitor that runs here: the memory that it is lent, and what it answers to the items of a script.
use crate::plan::Plan;
use crate::script::{Item, Member, What};
use replayframes::{
    answers_for, to_lend, Call, CallRefusal, Memories, Monitor, Refusal, Reply, Request, Spare,
};

/// How many pages a pool may have that is run here: its owners and summaries take a byte and more each, twice.
const MOST_PAGES: u64 = 1 << 28;
/// How many frames may have memory of their own.
pub const MOST_FRAMES: u64 = 1 << 24;
/// The words of a frame.
const FRAME_WORDS: u64 = replayframes::FRAME_WORDS as u64;

/// The memory of a monitor, and as much again in which lists are tried.
pub struct Lent {
    table: Vec<u64>,
    zones: Vec<u64>,
    tree: Vec<u16>,
    owners: Vec<u8>,
    words: Vec<u64>,
    spare_zones: Vec<u64>,
    spare_tree: Vec<u16>,
    spare_owners: Vec<u8>,
}

/// A monitor that was started.
pub struct Running<'a> {
    pub monitor: Monitor<'a>,
    spare: Spare<'a>,
}

/// What an item is answered.
#[derive(Clone, Debug, PartialEq, Eq)]
pub enum Answer {
    /// One request is done, with the address that it asked for.
    Done(Option<u64>),
    /// All of a list is done, with the address of each member that asked for one.
    All(Vec<Option<u64>>),
    /// It is refused, a list at this member, and nothing is changed.
    Refused(Refusal, Option<usize>),
}

/// How many frames have memory where so many are wished, and what is said if that is not the whole pool.
pub fn simulated(plan: &Plan, frames: u64) -> (u64, Option<String>) {
    let pool = plan.pool.pages.value;
    let held = pool.min(frames);
    let beyond = "those beyond are reserved (--frames)";
    let note = format!("the pool has {pool} frames; {held} have memory in this run, and {beyond}");
    (held, (held < pool).then_some(note))
}

/// So many zeros, if there is memory for them.
fn zeros<T: Clone + Default>(count: usize) -> Result<Vec<T>, String> {
    let mut words = Vec::new();
    let reserved = words.try_reserve_exact(count);
    reserved.map_err(|_| {
        format!("there is no memory for {count} words of a monitor: lower --frames, or the pool's pages")
    })?;
    words.resize(count, T::default());
    Ok(words)
}

impl Lent {
    /// What a plan needs, with memory for so many frames of its pool.
    pub fn new(plan: &Plan, frames: u64) -> Result<Lent, String> {
        let pool = plan.pool.pages.value;
        if pool > MOST_PAGES || frames > MOST_FRAMES {
            return Err(format!(
                "a run here has at most {MOST_PAGES} pages in its pool and --frames {MOST_FRAMES}"
            ));
        }
        let said = to_lend(plan.machines.len() as u64, plan.slots() as u64, pool)
            .map_err(|refusal| refusal.to_string())?;
        let words = usize::try_from(frames.min(pool) * FRAME_WORDS).map_err(|error| error.to_string())?;
        Ok(Lent {
            table: zeros(said.table)?,
            zones: zeros(said.zones)?,
            tree: zeros(said.tree)?,
            owners: zeros(said.owners)?,
            words: zeros(words)?,
            spare_zones: zeros(said.zones)?,
            spare_tree: zeros(said.tree)?,
            spare_owners: zeros(said.owners)?,
        })
    }

    /// Starts a monitor from a configuration's bytes.
    pub fn start(&mut self, config: &[u8]) -> Result<Running<'_>, Refusal> {
        let memories = Memories {
            table: &mut self.table,
            zones: &mut self.zones,
            tree: &mut self.tree,
            owners: &mut self.owners,
            words: &mut self.words,
        };
        let spare = Spare {
            zones: &mut self.spare_zones,
            tree: &mut self.spare_tree,
            owners: &mut self.spare_owners,
        };
        Ok(Running { monitor: Monitor::start(config, memories)?, spare })
    }
}

impl Running<'_> {
    /// What a machine is answered to an item.
    pub fn answer(&mut self, item: &Item) -> Answer {
        match &item.what {
            What::One(member) => self.one(item.asker.number, member.request),
            What::List(members) => self.list(item.asker.number, members),
        }
    }

    /// What a machine is answered to one request.
    fn one(&mut self, number: u64, request: Request) -> Answer {
        match self.monitor.ask(number, request) {
            Ok(address) => Answer::Done(address),
            Err(refusal) => Answer::Refused(refusal, None),
        }
    }

    /// What a machine is answered to a list.
    fn list(&mut self, number: u64, members: &[Member]) -> Answer {
        let requests: Vec<Request> = members.iter().map(|member| member.request).collect();
        self.call(number, Call::List(&requests))
    }

    /// What a machine is answered to a call, in its bytes.
    pub fn call(&mut self, number: u64, call: Call) -> Answer {
        let mut bytes = vec![0; call.bytes_needed()];
        let mut answers = vec![0; answers_for(bytes.len())];
        if call.encode(&mut bytes).is_err() {
            return Answer::Refused(Refusal::Malformed, None);
        }
        match self.monitor.serve(&mut self.spare, number, &bytes, &mut answers) {
            Ok(Reply::One(address)) => Answer::Done(address),
            Ok(Reply::List(addresses)) => Answer::All(addresses.collect()),
            Err(CallRefusal { refusal, member }) => Answer::Refused(refusal, member),
        }
    }
}
