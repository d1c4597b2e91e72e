//! Looks at what memories hold, one thing after the other.
use crate::{Kind, Refusal, Region};

/// What a look finds at 0, 1, 2 and so on, up to where there is nothing, which the refusal `end` says. Another refusal
/// is the last that is said.
pub(crate) fn each<T>(
    end: Refusal,
    look: impl Fn(u64) -> Result<T, Refusal>,
) -> impl Iterator<Item = Result<T, Refusal>> {
    let mut place = Some(0);
    core::iter::from_fn(move || {
        let at = place?;
        let found = look(at);
        place = found.is_ok().then(|| at + 1);
        Some(found).filter(|found| !matches!(found, Err(refusal) if *refusal == end))
    })
}

/// The region whose four numbers a look writes, unless it answers a refusal.
pub(crate) fn region_by(
    look: impl FnOnce(&mut u64, &mut u64, &mut u64, &mut u64) -> u32,
) -> Result<Region, Refusal> {
    let [mut guest, mut host, mut pages, mut kind] = [0; 4];
    crate::refusal::done(look(&mut guest, &mut host, &mut pages, &mut kind))?;
    let kind = Kind::from_number(kind).ok_or(Refusal::NoKind)?;
    Ok(Region { guest, host, pages, kind })
}

/// The number that a look writes, unless it answers a refusal.
pub(crate) fn number_by(look: impl FnOnce(&mut u64) -> u32) -> Result<u64, Refusal> {
    let mut number = 0;
    crate::refusal::done(look(&mut number))?;
    Ok(number)
}
