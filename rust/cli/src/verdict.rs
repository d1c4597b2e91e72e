//! What the proved check says of a configuration, for people: the rule that is broken, the machines and regions that
//! break it, where they stand in the file, and what would mend it. The judge is the check alone.
use crate::bytes_form;
use crate::input::Config;
use crate::mend::{free_start, range, somewhere, validity};
use crate::number::{counted, toml_address};
use crate::plan::{kind_name, At, Machine, Plan, Region, KINDS, MOST_MACHINES, MOST_REGIONS};
use crate::wrap::wrap;
use replayframes::config::{self, ConfigRefusal, Fault};

/// How wide an explanation is.
const WIDTH: usize = 80;

/// The machines and regions that break a rule, behind their places in the file, and what would mend it.
type Said = (Vec<String>, String);

/// A rule that is broken.
#[derive(Clone, Debug, PartialEq, Eq)]
pub struct Broken {
    pub code: u32,
    pub rule: String,
    /// Each machine or region that breaks it, behind its place in the file.
    pub places: Vec<String>,
    pub mend: String,
}

impl Broken {
    /// The explanation, in lines, with the file's name.
    pub fn text(&self, file: &str) -> String {
        let mut lines = wrap(&format!("{file}: refused (rule {}): {}", self.code, self.rule), WIDTH, "");
        self.places.iter().for_each(|place| lines.extend(wrap(place, WIDTH, "  ")));
        lines.extend(wrap(&format!("To mend it: {}", self.mend), WIDTH, "  "));
        lines.join("\n") + "\n"
    }
}

/// What the proved check says of a configuration.
pub fn judge(config: &Config) -> Result<(), Broken> {
    config::check(&config.bytes).map_err(|refusal| explain(refusal, config))
}

/// A refusal by the check, for people.
fn explain(refusal: ConfigRefusal, config: &Config) -> Broken {
    let said = refusal.rule().to_string();
    let rule = said.split_once(". ").map_or(said.as_str(), |(wrong, _)| wrong).to_string();
    let (places, mend) = match &config.plan {
        Some(plan) => Explaining { plan }.places_and_mend(refusal),
        None => of_bytes(refusal, &config.bytes),
    };
    Broken { code: refusal.rule().code(), rule, places, mend }
}

/// Where bytes that are no plan break a rule, and what would mend it.
fn of_bytes(refusal: ConfigRefusal, bytes: &[u8]) -> Said {
    let (again, len) = ("compile the file again from its TOML", bytes.len());
    match refusal {
        ConfigRefusal::TooShort { offset } => {
            let place = format!(
                "byte {offset}: the file has {len} bytes, and the field that begins here is not whole"
            );
            (vec![place], again.to_string())
        }
        ConfigRefusal::LeftOver { offset } => {
            let place =
                format!("byte {offset}: the configuration ends before it, and the file has {len} bytes");
            (vec![place], format!("{again}, or cut it to {}", counted(offset as u64, "byte")))
        }
        other => {
            let places = match bytes_form::front(bytes) {
                Some((plan, _)) => Explaining { plan: &plan }.places_and_mend(other).0,
                None => byte_of(other, bytes).into_iter().collect(),
            };
            (places, format!("{again}; its bytes are not whole either"))
        }
    }
}

/// The byte at which bytes that end too early break a rule, and what is there, if a machine or region breaks it.
fn byte_of(refusal: ConfigRefusal, bytes: &[u8]) -> Option<String> {
    if refusal == ConfigRefusal::TooManyMachines {
        let count = bytes_form::machine_count(bytes)?;
        return Some(format!("byte 0: it counts {}", counted(u64::from(count), "machine")));
    }
    let (machine, region) = (refusal.machine()?, refusal.region());
    let byte = bytes_form::start_of(bytes, machine, region.map(|at| at.region))?;
    let what = region.map_or_else(|| format!("machine {machine}"), |at| at.to_string());
    Some(format!("byte {byte}: {what}, counted from 0"))
}

/// The plan that a rule is broken in.
struct Explaining<'a> {
    plan: &'a Plan,
}

impl Explaining<'_> {
    /// Where a rule is broken, and what would mend it.
    fn places_and_mend(&self, refusal: ConfigRefusal) -> Said {
        match refusal {
            ConfigRefusal::TooManyMachines => self.too_many_machines(),
            ConfigRefusal::TooManyRegions { machine } => {
                self.on_machine(machine, |found| self.too_many_regions(found))
            }
            ConfigRefusal::SameNumber { machine, other } => {
                self.on_machine(machine, |a| self.on_machine(other, |b| self.same_number(a, b)))
            }
            ConfigRefusal::UnknownKind { at } => self.on_region(at, |a| a.unknown_kind()),
            ConfigRefusal::NotValid { at, fault } => self.on_region(at, |a| a.not_valid(fault)),
            ConfigRefusal::PoolNotValid { fault } => self.pool_not_valid(fault),
            ConfigRefusal::HostShared { at, other } => self.on_two(at, other, |a, b| self.host_shared(a, b)),
            ConfigRefusal::NotCoinciding { at, other } => {
                self.on_two(at, other, |a, b| self.not_coinciding(a, b))
            }
            ConfigRefusal::OneMachine { at, other } => self.on_two(at, other, |a, b| self.one_machine(a, b)),
            ConfigRefusal::GuestShared { at, other } => {
                self.on_two(at, other, |a, b| self.guest_shared(a, b))
            }
            ConfigRefusal::PoolShared { at } => self.on_region(at, |a| self.pool_shared(a)),
            other => (Vec::new(), other.to_string()),
        }
    }

    /// What is said of the machine at a place.
    fn on_machine(&self, place: usize, say: impl FnOnce(&Machine) -> Said) -> Said {
        self.plan.machines.get(place).map_or_else(|| (Vec::new(), String::new()), say)
    }

    /// What is said of the region at a place.
    fn on_region(&self, at: config::Place, say: impl FnOnce(Given) -> Said) -> Said {
        self.on_machine(at.machine, |machine| {
            let region = machine.regions.get(at.region);
            region.map_or_else(|| (Vec::new(), String::new()), |region| say(Given { machine, region }))
        })
    }

    /// What is said of the regions at two places.
    fn on_two(
        &self,
        at: config::Place,
        other: config::Place,
        say: impl FnOnce(Given, Given) -> Said,
    ) -> Said {
        self.on_region(at, |a| self.on_region(other, |b| say(a, b)))
    }

    /// The first machine that is too much.
    fn too_many_machines(&self) -> Said {
        let machines = &self.plan.machines;
        let first = machines.get(MOST_MACHINES).map(|machine| {
            format!(
                "{}: machine {} is number {} of the list",
                machine.number.place,
                machine.name,
                MOST_MACHINES + 1
            )
        });
        let much = machines.len().saturating_sub(MOST_MACHINES) as u64;
        (first.into_iter().collect(), format!("leave out {}", counted(much, "machine")))
    }

    /// The first region of a machine that is too much.
    fn too_many_regions(&self, machine: &Machine) -> Said {
        let region = machine.regions.get(MOST_REGIONS);
        let first = region.map(|region| {
            let given = Given { machine, region };
            format!("{}: {} is number {} of its list", region.guest.place, given.name(), MOST_REGIONS + 1)
        });
        let much = machine.regions.len().saturating_sub(MOST_REGIONS) as u64;
        (
            first.into_iter().collect(),
            format!("leave out {}, or join regions that lie side by side", counted(much, "region")),
        )
    }

    /// Two machines of one number, and one that is free.
    fn same_number(&self, a: &Machine, b: &Machine) -> Said {
        let place = |machine: &Machine| {
            format!(
                "{}: machine {} has the number {}",
                machine.number.place, machine.name, machine.number.value
            )
        };
        let free = (1..=u64::from(u16::MAX)).find(|&number| self.plan.place_of(number).is_none());
        let such = free.map_or_else(String::new, |number| format!(", such as {number}"));
        (vec![place(a), place(b)], format!("give {} a number that no machine has{such}", b.name))
    }

    /// Why the pool is not valid.
    fn pool_not_valid(&self, fault: Fault) -> Said {
        let pool = &self.plan.pool;
        let (place, mend) = validity(fault, pool.host, pool.host, pool.pages);
        (vec![format!("{place}: the pool, {fault}")], mend)
    }

    /// Two regions that meet on the host, and a place that is free.
    fn host_shared(&self, a: Given, b: Given) -> Said {
        let shared = format!(
            "; or, if both are to reach that memory, make both \"{}\", with one host and as many pages",
            KINDS[2]
        );
        let shared = if a.machine.number == b.machine.number { "" } else { &shared };
        (vec![a.on_host(), b.on_host()], format!("{}{shared}", self.move_on_host(&b)))
    }

    /// Two shared regions that meet, and what would make them the same.
    fn not_coinciding(&self, a: Given, b: Given) -> Said {
        let (host, pages) = (toml_address(a.region.host.value), a.region.pages.value);
        let same = format!("give {} host = {host} and pages = {pages}, as the other has", b.name());
        (vec![a.on_host(), b.on_host()], format!("{same}; or {}", self.move_on_host(&b)))
    }

    /// Two shared regions of one machine that meet.
    fn one_machine(&self, a: Given, b: Given) -> Said {
        (vec![a.on_host(), b.on_host()], format!("leave one of them out, or {}", self.move_on_host(&b)))
    }

    /// Two regions that meet for the guest, and a place that is free.
    fn guest_shared(&self, a: Given, b: Given) -> Said {
        let taken: Vec<_> =
            a.machine.regions.iter().map(|region| (region.guest.value, region.pages.value)).collect();
        let start = free_start(&taken, b.region.pages.value);
        (vec![a.on_guest(), b.on_guest()], format!("move {} to {}", b.name(), somewhere("guest", start)))
    }

    /// A region that meets the pool.
    fn pool_shared(&self, a: Given) -> Said {
        let pool = &self.plan.pool;
        let pool =
            format!("{}: the pool: {}", pool.host.place, range("host", pool.host.value, pool.pages.value));
        (vec![a.on_host(), pool], format!("{}, or move the pool", self.move_on_host(&a)))
    }

    /// Where else on the host a region could be.
    fn move_on_host(&self, given: &Given) -> String {
        let pool = (self.plan.pool.host.value, self.plan.pool.pages.value);
        let regions = self.plan.machines.iter().flat_map(|machine| &machine.regions);
        let taken: Vec<_> = regions
            .map(|region| (region.host.value, region.pages.value))
            .chain(std::iter::once(pool))
            .collect();
        format!(
            "move {} to {}",
            given.name(),
            somewhere("host", free_start(&taken, given.region.pages.value))
        )
    }
}

/// A region, with the machine that it is given to.
struct Given<'a> {
    machine: &'a Machine,
    region: &'a Region,
}

impl Given<'_> {
    /// What it is called.
    fn name(&self) -> String {
        format!("region {} of machine {}", self.region.name, self.machine.name)
    }

    /// Its place in the file, and its host memory.
    fn on_host(&self) -> String {
        let Region { host, pages, kind, .. } = self.region;
        let kind = kind_name(kind.value);
        format!("{}: {} ({kind}): {}", host.place, self.name(), range("host", host.value, pages.value))
    }

    /// Its place in the file, and its guest memory.
    fn on_guest(&self) -> String {
        let Region { guest, pages, .. } = self.region;
        format!("{}: {}: {}", guest.place, self.name(), range("guest", guest.value, pages.value))
    }

    /// A kind that is none, and those that there are.
    fn unknown_kind(&self) -> Said {
        let At { value, place } = self.region.kind;
        let kinds = KINDS.map(|name| format!("\"{name}\"")).join(", ");
        (
            vec![format!("{place}: {} has the kind {value}", self.name())],
            format!("write one of {kinds} (0, 1, 2 in bytes)"),
        )
    }

    /// Why it is not valid.
    fn not_valid(&self, fault: Fault) -> Said {
        let Region { guest, host, pages, .. } = self.region;
        let (place, mend) = validity(fault, *guest, *host, *pages);
        let without = if fault == Fault::NoPage { ", or leave it out" } else { "" };
        (vec![format!("{place}: {}, {fault}", self.name())], mend + without)
    }
}
