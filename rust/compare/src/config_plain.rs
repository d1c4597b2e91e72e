//! A checker of configurations in plain Rust, written from the format and the rules alone.

/// A region as the bytes have it.
#[derive(Clone, Copy, Debug, PartialEq, Eq)]
pub struct Region {
    pub guest: u64,
    pub host: u64,
    pub pages: u64,
    pub kind: u8,
}

/// A machine, and the regions that it is given.
#[derive(Clone, Debug)]
pub struct Machine {
    pub number: u16,
    pub regions: Vec<Region>,
}

/// A whole configuration; `pool` is host start and pages of the allocator's region.
#[derive(Clone, Debug)]
pub struct Config {
    pub machines: Vec<Machine>,
    pub pool: (u64, u64),
}

/// A code and four numbers, as `rf_config_check` answers: 0 and the number of machines, or a reason and its places.
pub type Answer = [u64; 5];

const PAGE: u128 = 4096;

/// The bytes of a configuration.
pub fn bytes(config: &Config) -> Vec<u8> {
    let mut out = Vec::new();
    out.extend((config.machines.len() as u16).to_le_bytes());
    for machine in &config.machines {
        out.extend(machine.number.to_le_bytes());
        out.extend((machine.regions.len() as u16).to_le_bytes());
        for region in &machine.regions {
            out.extend(region.guest.to_le_bytes());
            out.extend(region.host.to_le_bytes());
            out.extend(region.pages.to_le_bytes());
            out.push(region.kind);
        }
    }
    out.extend(config.pool.0.to_le_bytes());
    out.extend(config.pool.1.to_le_bytes());
    out
}

/// A reader that knows where a field stands that is not whole.
struct Reader<'a> {
    bytes: &'a [u8],
    at: usize,
}

impl Reader<'_> {
    fn field(&mut self, size: usize) -> Result<u64, Answer> {
        if self.bytes.len() < self.at + size {
            return Err([32, self.at as u64, 0, 0, 0]);
        }
        let part = &self.bytes[self.at..self.at + size];
        self.at += size;
        Ok(part.iter().rev().fold(0, |sum, byte| sum << 8 | u64::from(*byte)))
    }
}

fn read(reader: &mut Reader) -> Result<Config, Answer> {
    let count = reader.field(2)?;
    if count > 64 {
        return Err([33, 0, 0, 0, 0]);
    }
    let mut machines = Vec::new();
    for m in 0..count {
        let number = reader.field(2)? as u16;
        let regions = reader.field(2)?;
        if regions > 32 {
            return Err([34, m, 0, 0, 0]);
        }
        let mut list = Vec::new();
        for i in 0..regions {
            let (guest, host, pages) = (reader.field(8)?, reader.field(8)?, reader.field(8)?);
            let kind = reader.field(1)? as u8;
            if kind > 2 {
                return Err([35, m, i, 0, 0]);
            }
            list.push(Region { guest, host, pages, kind });
        }
        machines.push(Machine { number, regions: list });
    }
    let pool = (reader.field(8)?, reader.field(8)?);
    Ok(Config { machines, pool })
}

/// The first condition of a valid region that is broken, or 0.
fn fault(guest: u64, host: u64, pages: u64) -> u64 {
    let end = |start: u64| u128::from(start) + PAGE * u128::from(pages) > u128::from(u64::MAX);
    if pages == 0 {
        1
    } else if u128::from(guest) % PAGE != 0 {
        2
    } else if u128::from(host) % PAGE != 0 {
        3
    } else if end(guest) {
        4
    } else if end(host) {
        5
    } else {
        0
    }
}

fn overlap(a: u64, n: u64, b: u64, k: u64) -> bool {
    let (a, b) = (u128::from(a), u128::from(b));
    a < b + PAGE * u128::from(k) && b < a + PAGE * u128::from(n)
}

/// The configuration that bytes are, or why they are none that is right.
pub fn accepted(bytes: &[u8]) -> Result<Config, Answer> {
    let mut reader = Reader { bytes, at: 0 };
    let config = read(&mut reader)?;
    if let Some(answer) = rules(&config) {
        return Err(answer);
    }
    if reader.at < bytes.len() {
        return Err([44, reader.at as u64, 0, 0, 0]);
    }
    Ok(config)
}

/// What `check` must answer.
pub fn check(bytes: &[u8]) -> Answer {
    match accepted(bytes) {
        Ok(config) => [0, config.machines.len() as u64, 0, 0, 0],
        Err(answer) => answer,
    }
}

fn rules(config: &Config) -> Option<Answer> {
    let machines = &config.machines;
    for m in 0..machines.len() {
        for n in m + 1..machines.len() {
            if machines[m].number == machines[n].number {
                return Some([36, m as u64, n as u64, 0, 0]);
            }
        }
    }
    let all: Vec<(u64, u64, Region)> = machines
        .iter()
        .enumerate()
        .flat_map(|(m, machine)| {
            machine.regions.iter().enumerate().map(move |(i, r)| (m as u64, i as u64, *r))
        })
        .collect();
    for &(m, i, r) in &all {
        let wrong = fault(r.guest, r.host, r.pages);
        if wrong != 0 {
            return Some([37, m, i, wrong, 0]);
        }
    }
    let (host, pages) = config.pool;
    let wrong = fault(0, host, pages);
    if wrong != 0 {
        return Some([38, wrong, 0, 0, 0]);
    }
    let meet = |a: &Region, b: &Region| overlap(a.host, a.pages, b.host, b.pages);
    for &(m, i, a) in &all {
        if a.kind != 2 {
            for &(n, j, b) in &all {
                if (m, i) != (n, j) && meet(&a, &b) {
                    return Some([39, m, i, n, j]);
                }
            }
        }
    }
    for (x, &(m, i, a)) in all.iter().enumerate() {
        for &(n, j, b) in &all[x + 1..] {
            if a.kind == 2 && b.kind == 2 && meet(&a, &b) {
                if m == n {
                    return Some([41, m, i, j, 0]);
                }
                if a.host != b.host || a.pages != b.pages {
                    return Some([40, m, i, n, j]);
                }
            }
        }
    }
    for (x, &(m, i, a)) in all.iter().enumerate() {
        for &(n, j, b) in &all[x + 1..] {
            if m == n && overlap(a.guest, a.pages, b.guest, b.pages) {
                return Some([42, m, i, j, 0]);
            }
        }
    }
    for &(m, i, r) in &all {
        if overlap(host, pages, r.host, r.pages) {
            return Some([43, m, i, 0, 0]);
        }
    }
    None
}
