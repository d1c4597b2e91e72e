//! A configuration in bytes: compiled from a plan, and read back, with the offset of each value. Reading needs the
//! bytes to be whole and no more; whether they are right is the proved check's to say, so a kind may be any byte, which
//! the crate's own `Config` cannot hold.
use crate::plan::{At, Machine, Place, Plan, Pool, Region};

/// The bytes of a plan, which has at most 65,535 machines with as many regions each.
pub fn compile(plan: &Plan) -> Vec<u8> {
    let mut bytes = Vec::new();
    bytes.extend(count(plan.machines.len()));
    for machine in &plan.machines {
        bytes.extend(machine.number.value.to_le_bytes());
        bytes.extend(count(machine.regions.len()));
        machine.regions.iter().for_each(|region| put_region(&mut bytes, region));
    }
    bytes.extend(plan.pool.host.value.to_le_bytes());
    bytes.extend(plan.pool.pages.value.to_le_bytes());
    bytes
}

/// A count in two bytes.
fn count(count: usize) -> [u8; 2] {
    u16::try_from(count).unwrap_or(u16::MAX).to_le_bytes()
}

/// Writes a region behind what there is.
fn put_region(bytes: &mut Vec<u8>, region: &Region) {
    for value in [region.guest.value, region.host.value, region.pages.value] {
        bytes.extend(value.to_le_bytes());
    }
    bytes.push(region.kind.value);
}

/// Bytes that are read from the front.
struct Reader<'a> {
    bytes: &'a [u8],
    at: usize,
}

impl Reader<'_> {
    /// The next field of so many bytes, with its offset, or nothing where it is not whole.
    fn field<const SIZE: usize>(&mut self) -> Option<At<[u8; SIZE]>> {
        let place = Place::Byte(self.at);
        let field = self.bytes.get(self.at..self.at.checked_add(SIZE)?)?;
        self.at += SIZE;
        Some(At { value: field.try_into().ok()?, place })
    }

    /// The next number of two bytes.
    fn short(&mut self) -> Option<At<u16>> {
        let At { value, place } = self.field()?;
        Some(At { value: u16::from_le_bytes(value), place })
    }

    /// The next number of eight bytes.
    fn long(&mut self) -> Option<At<u64>> {
        let At { value, place } = self.field()?;
        Some(At { value: u64::from_le_bytes(value), place })
    }

    /// The next region, which is named by its place.
    fn region(&mut self, i: u16) -> Option<Region> {
        let (guest, host, pages) = (self.long()?, self.long()?, self.long()?);
        let At { value: [kind], place } = self.field()?;
        Some(Region { name: format!("region-{i}"), guest, host, pages, kind: At { value: kind, place } })
    }

    /// The next machine, which is named by its number, and by its place too where the number is taken.
    fn machine(&mut self, before: &[Machine]) -> Option<Machine> {
        let number = self.short()?;
        let count = self.short()?.value;
        let regions = (0..count).map(|i| self.region(i)).collect::<Option<_>>()?;
        let taken = before.iter().any(|machine| machine.number.value == number.value);
        let name = format!("machine-{}", number.value);
        let name = if taken { format!("{name}-{}", before.len()) } else { name };
        Some(Machine { name, number, regions })
    }

    /// Passes so many machines.
    fn pass_machines(&mut self, count: usize) -> Option<()> {
        (0..count).try_for_each(|_| self.machine(&[]).map(drop))
    }

    /// Passes a machine's number and count, and so many of its regions.
    fn pass_regions(&mut self, count: usize) -> Option<()> {
        self.short()?;
        self.short()?;
        (0..count).try_for_each(|_| self.region(0).map(drop))
    }

    /// All the machines.
    fn machines(&mut self) -> Option<Vec<Machine>> {
        let mut machines = Vec::new();
        for _ in 0..self.short()?.value {
            machines.push(self.machine(&machines)?);
        }
        Some(machines)
    }
}

/// How many machines bytes count, if they have a count.
pub fn machine_count(bytes: &[u8]) -> Option<u16> {
    Reader { bytes, at: 0 }.short().map(|count| count.value)
}

/// The byte at which a machine begins, or a region of it, by their places, if all before it is whole.
pub fn start_of(bytes: &[u8], machine: usize, region: Option<usize>) -> Option<usize> {
    let mut reader = Reader { bytes, at: 0 };
    reader.short()?;
    reader.pass_machines(machine)?;
    if let Some(region) = region {
        reader.pass_regions(region)?;
    }
    Some(reader.at)
}

/// The plan with which bytes begin, and how many bytes it has, or nothing where they end too early.
pub fn front(bytes: &[u8]) -> Option<(Plan, usize)> {
    let mut reader = Reader { bytes, at: 0 };
    let machines = reader.machines()?;
    let pool = Pool { host: reader.long()?, pages: reader.long()? };
    Some((Plan { machines, pool }, reader.at))
}

/// The plan that bytes are, or nothing where they end too early or too late.
pub fn read(bytes: &[u8]) -> Option<Plan> {
    front(bytes).filter(|&(_, len)| len == bytes.len()).map(|(plan, _)| plan)
}

#[cfg(test)]
mod tests {
    use super::{compile, machine_count, read, start_of};
    use crate::plan::Place;

    /// One machine, number 7, with one region of kind 2, and the pool.
    fn one() -> Vec<u8> {
        let mut bytes = vec![1, 0, 7, 0, 1, 0];
        for number in [0x1000u64, 0x2000, 3] {
            bytes.extend(number.to_le_bytes());
        }
        bytes.push(2);
        bytes.extend(0x9000u64.to_le_bytes());
        bytes.extend(16u64.to_le_bytes());
        bytes
    }

    #[test]
    fn reads_each_field_with_its_offset() {
        let plan = read(&one()).unwrap();
        let region = &plan.machines[0].regions[0];
        assert_eq!((plan.machines[0].number.value, plan.machines[0].number.place), (7, Place::Byte(2)));
        assert_eq!((region.guest.value, region.guest.place), (0x1000, Place::Byte(6)));
        assert_eq!((region.kind.value, region.kind.place), (2, Place::Byte(30)));
        assert_eq!((plan.pool.host.value, plan.pool.pages.place), (0x9000, Place::Byte(39)));
    }

    #[test]
    fn compiles_to_the_same_bytes() {
        assert_eq!(compile(&read(&one()).unwrap()), one());
    }

    #[test]
    fn needs_every_byte_and_no_more() {
        let bytes = one();
        assert!((0..bytes.len()).all(|len| read(&bytes[..len]).is_none()));
        assert_eq!(read(&[bytes, vec![0]].concat()), None);
    }

    #[test]
    fn machines_and_regions_begin_behind_all_before_them() {
        let bytes = one();
        let starts = [(0, None), (0, Some(0)), (0, Some(1)), (1, None)];
        let found = starts.map(|(machine, region)| start_of(&bytes, machine, region));
        assert_eq!(found, [Some(2), Some(6), Some(31), Some(31)]);
        assert_eq!(start_of(&bytes[..30], 1, None), None);
        assert_eq!((machine_count(&bytes), machine_count(&bytes[..1])), (Some(1), None));
    }

    #[test]
    fn machines_of_one_number_have_two_names() {
        let bytes = [vec![2, 0, 7, 0, 0, 0, 7, 0, 0, 0], vec![0; 16]].concat();
        let names: Vec<String> =
            read(&bytes).unwrap().machines.into_iter().map(|machine| machine.name).collect();
        assert_eq!(names, ["machine-7", "machine-7-1"]);
    }
}
