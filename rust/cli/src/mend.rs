//! What would mend a configuration: starts and lengths that are right, and places that are free.
use crate::number::{address, bytes_of_pages, toml_address, PAGE};
use crate::plan::{At, Place};
use replayframes::config::Fault;

/// Where a region is not valid, and what would mend it.
pub fn validity(fault: Fault, guest: At<u64>, host: At<u64>, pages: At<u64>) -> (Place, String) {
    match fault {
        Fault::GuestStart => (guest.place, round("guest", guest.value)),
        Fault::HostStart => (host.place, round("host", host.value)),
        Fault::GuestEnd => (guest.place, lower("guest", guest.value, pages.value)),
        Fault::HostEnd => (host.place, lower("host", host.value, pages.value)),
        _ => (pages.place, "give it at least one page".to_string()),
    }
}

/// Starts nearby that are multiples of a page.
fn round(what: &str, start: u64) -> String {
    let down = start - start % PAGE;
    let up =
        down.checked_add(PAGE).map_or_else(String::new, |up| format!(" or {what} = {}", toml_address(up)));
    format!("write {what} = {}{up}", toml_address(down))
}

/// A start or a length with which a region ends in time.
fn lower(what: &str, start: u64, pages: u64) -> String {
    let fewer = (u64::MAX - start) / PAGE;
    let fewer = if fewer == 0 { String::new() } else { format!("write pages = {fewer} or less, or ") };
    let room = pages.checked_mul(PAGE).map(|bytes| u64::MAX - bytes);
    match room {
        Some(room) => format!("{fewer}write {what} = {} or less", toml_address(room - room % PAGE)),
        None => format!("{fewer}give it fewer than 2^52 pages and a lower {what}"),
    }
}

/// The range of a region in words.
pub fn range(what: &str, start: u64, pages: u64) -> String {
    let end = u128::from(start) + u128::from(PAGE) * u128::from(pages);
    format!("{what} {} to {:#x}, {}", address(start), end.saturating_sub(1), bytes_of_pages(pages))
}

/// A place that is free, if one is known.
pub fn somewhere(what: &str, start: Option<u64>) -> String {
    match start {
        Some(start) => format!("{what} = {}, which is free", toml_address(start)),
        None => format!("a {what} that is free: give it fewer pages if there is none"),
    }
}

/// The lowest end of a range at which so many pages meet none of them.
pub fn free_start(taken: &[(u64, u64)], pages: u64) -> Option<u64> {
    let end = |start: u64, pages: u64| start.checked_add(pages.checked_mul(PAGE)?);
    let is_free = |start: u64| {
        end(start, pages).map_or(false, |last| {
            taken
                .iter()
                .all(|&(from, long)| last <= from || end(from, long).map_or(false, |behind| behind <= start))
        })
    };
    taken.iter().filter_map(|&(start, pages)| end(start, pages)).filter(|&start| is_free(start)).min()
}

#[cfg(test)]
mod tests {
    use super::{free_start, lower, round};
    use crate::number::PAGE;

    #[test]
    fn a_free_start_is_behind_a_range_and_meets_none() {
        let taken = [(0, 1), (2 * PAGE, 1), (8 * PAGE, 2)];
        assert_eq!(free_start(&taken, 1), Some(PAGE));
        assert_eq!(free_start(&taken, 5), Some(3 * PAGE));
        assert_eq!(free_start(&taken, 6), Some(10 * PAGE));
        assert_eq!(free_start(&[(0, u64::MAX / PAGE)], 1), None);
        assert_eq!(free_start(&taken, u64::MAX), None);
    }

    #[test]
    fn starts_are_rounded_both_ways_where_there_are_two() {
        assert_eq!(round("host", 0x1234), "write host = 0x1000 or host = 0x2000");
        assert_eq!(round("host", u64::MAX), "write host = \"0xfffffffffffff000\"");
    }

    #[test]
    fn ends_are_lowered_at_either_side() {
        assert_eq!(
            lower("host", 0xffff_ffff_ffff_0000, 16),
            "write pages = 15 or less, or write host = \"0xfffffffffffef000\" or less"
        );
        assert_eq!(lower("host", 0xffff_ffff_ffff_f000, 1), "write host = \"0xffffffffffffe000\" or less");
        assert!(lower("guest", 0, 1 << 52).contains("fewer than 2^52 pages"));
    }
}
