//! Times calls at a million frames, ours beside the rival: a list that sets a machine up, the same list
//! refused at its last member and undone, its members one by one, and a machine that is removed whole by a
//! list.
use super::bytes::{of_list, of_request};
use super::calls::answers_for;
use super::memory::{Memory, Spare};
use super::model::Plan;
use super::request::{Request, BOTH, PRESENT};
use super::subject::Calls;
use super::timing::{plan, regions, row, RemoveWhole, Work, ASKER, OTHERS, WHOLE};

/// The regions that the asker's sets have, how many frames it takes one by one, and the sizes of its runs.
const REGIONS: usize = 8;
const FRAMES: usize = 9;
const RUNS: [usize; 4] = [2, 4, 8, 16];
/// How often a list that is undone is called in a round.
const TIMES: usize = 10;

/// How the asker's requests are put.
#[derive(Clone, Copy)]
enum Way {
    List,
    /// With a member in place of the last one that is refused.
    Undone,
    /// Each of them by its function.
    Functions,
    /// Each of them as a call.
    Calls,
}

/// The asker is set up by thirty requests: it is added, gets all its regions in both sets, and takes frames
/// and runs.
struct SetUp {
    plan: Plan,
    way: Way,
    requests: Vec<Request>,
    calls: Vec<Vec<u8>>,
    answers: usize,
}

impl SetUp {
    /// The requests put so.
    fn new(way: Way) -> SetUp {
        let plan = Plan { frames: WHOLE, ..plan(REGIONS) };
        let given = regions(&plan);
        let inserts = BOTH
            .into_iter()
            .flat_map(|which| given.iter().map(move |&region| Request::Insert(which, region)));
        let runs = RUNS.into_iter().map(|size| Request::Run { size, align_log2: 1 });
        let mut requests: Vec<Request> = [Request::AddZone].into_iter().chain(inserts).collect();
        requests.extend([Request::Alloc; FRAMES].into_iter().chain(runs));
        assert_eq!(requests.len(), 30, "thirty requests");
        if let (Way::Undone, Some(last)) = (way, requests.last_mut()) {
            *last = Request::AddZone;
        }
        let calls = match way {
            Way::List | Way::Undone => vec![of_list(&requests)],
            Way::Functions => Vec::new(),
            Way::Calls => requests.iter().map(|&request| of_request(request)).collect(),
        };
        let answers = calls.iter().map(|call| answers_for(call)).max().unwrap_or(0);
        SetUp { plan, way, requests, calls, answers }
    }

    /// All calls: the sum of the codes, the last index, and the sum of the single requests' answers.
    fn call<S: Calls>(&self, memory: &mut Memory, spare: &mut Spare, answers: &mut [u64]) -> (u32, u64, u64) {
        let (mut code, mut index, mut sum) = (0, 0, 0);
        for call in &self.calls {
            let (rooms, mut address) = (memory.rooms(), 0);
            code += S::serve(rooms, spare.rooms(), ASKER, call, answers, &mut index, &mut address);
            sum += address;
        }
        (code, index, sum)
    }
}

impl Work for SetUp {
    fn plan(&self) -> &Plan {
        &self.plan
    }

    fn prepare<S: Calls>(&self, _: &mut Memory) {}

    fn run<S: Calls>(&self, memory: &mut Memory, spare: &mut Spare) -> (usize, u64) {
        let mut answers = vec![0; self.answers];
        match self.way {
            Way::Functions => {
                let answers = self.requests.iter().map(|&request| memory.ask::<S>(ASKER, request));
                (1, answers.map(|answer| answer.expect("a request that is met").unwrap_or(0)).sum())
            }
            Way::Undone => {
                for _ in 0..TIMES {
                    let outcome = self.call::<S>(memory, spare, &mut answers);
                    assert_eq!(outcome, (PRESENT, 29, 0), "the last member is refused");
                }
                (TIMES, 0)
            }
            Way::List => {
                let (code, ..) = self.call::<S>(memory, spare, &mut answers);
                assert_eq!(code, 0, "every member is met");
                (1, answers.iter().skip(1).step_by(2).sum())
            }
            Way::Calls => {
                let (code, _, sum) = self.call::<S>(memory, spare, &mut answers);
                assert_eq!(code, 0, "every request is met");
                (1, sum)
            }
        }
    }
}

/// The same work as the removal of a machine, by a list that has it alone.
struct RemovedByList {
    work: RemoveWhole,
    call: Vec<u8>,
}

impl Work for RemovedByList {
    fn plan(&self) -> &Plan {
        self.work.plan()
    }

    fn prepare<S: Calls>(&self, memory: &mut Memory) {
        self.work.prepare::<S>(memory);
    }

    fn run<S: Calls>(&self, memory: &mut Memory, spare: &mut Spare) -> (usize, u64) {
        let (mut answers, mut index, mut address) = ([0; 2], 0, 0);
        let rooms = memory.rooms();
        let code = S::serve(rooms, spare.rooms(), ASKER, &self.call, &mut answers, &mut index, &mut address);
        assert_eq!(code, 0, "the asker is there");
        (1, 0)
    }
}

/// All rows.
pub fn rows() {
    row("thirty requests that set a machine up as a list, 1M frames", SetUp::new(Way::List));
    row("the same list refused at the last and undone, 1M frames", SetUp::new(Way::Undone));
    row("the same thirty by their functions, 1M frames", SetUp::new(Way::Functions));
    row("the same thirty as calls of one request, 1M frames", SetUp::new(Way::Calls));
    let call = of_list(&[Request::RemoveZoneWhole]);
    for (name, owners) in [("half of the usable its own", [ASKER, OTHERS[0]]), ("none its own", OTHERS)] {
        let work = RemovedByList { work: RemoveWhole::new(owners), call: call.clone() };
        row(&format!("a machine removed whole by a list, 1M frames, {name}"), work);
    }
}
