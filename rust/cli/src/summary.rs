//! What an accepted configuration holds: a table of machines and regions, and totals.
use crate::number::{address, bytes, bytes_of_pages, counted, PAGE};
use crate::plan::{kind_name, Machine, Plan, Region, KINDS};
use crate::table::{Side, Table};
use std::collections::BTreeSet;

/// The table and the totals of an accepted plan.
pub fn text(plan: &Plan) -> String {
    format!("{}\n{}", table(plan), totals(plan))
}

/// A row for each region, for each machine without any, and for the pool.
fn table(plan: &Plan) -> String {
    let mut table = Table::new(&[
        ("machine", Side::Left),
        ("number", Side::Right),
        ("region", Side::Left),
        ("kind", Side::Left),
        ("guest", Side::Right),
        ("host", Side::Right),
        ("size", Side::Right),
    ]);
    plan.machines.iter().for_each(|machine| push_machine(&mut table, machine));
    let (host, pages) = (plan.pool.host.value, plan.pool.pages.value);
    let pool = ["", "", "the pool", "", "", &address(host), &bytes_of_pages(pages)];
    table.row(pool.map(str::to_string).to_vec());
    table.text()
}

/// The rows of a machine. Its name and number stand in the first.
fn push_machine(table: &mut Table, machine: &Machine) {
    let number = machine.number.value.to_string();
    if machine.regions.is_empty() {
        table.row([&machine.name, number.as_str(), "none", "", "", "", ""].map(str::to_string).to_vec());
    }
    for (i, region) in machine.regions.iter().enumerate() {
        let (name, number) = if i == 0 { (machine.name.as_str(), number.as_str()) } else { ("", "") };
        table.row([vec![name.to_string(), number.to_string()], cells(region)].concat());
    }
}

/// The cells of a region.
fn cells(region: &Region) -> Vec<String> {
    vec![
        region.name.clone(),
        kind_name(region.kind.value),
        address(region.guest.value),
        address(region.host.value),
        bytes_of_pages(region.pages.value),
    ]
}

/// How many there are of everything, with host memory counted once where it is shared.
fn totals(plan: &Plan) -> String {
    let regions: usize = plan.machines.iter().map(|machine| machine.regions.len()).sum();
    let (machines, regions) =
        (counted(plan.machines.len() as u64, "machine"), counted(regions as u64, "region"));
    let kinds: String = (0u8..)
        .zip(KINDS)
        .map(|(kind, name)| format!("  {name}: {}\n", bytes(host_bytes(plan, kind))))
        .collect();
    let pool = counted(plan.pool.pages.value, "frame");
    format!("{machines} with {regions}; host memory, each page counted once:\n{kinds}  the pool: {pool}\n")
}

/// The host bytes in regions of a kind, those that coincide counted once.
fn host_bytes(plan: &Plan, kind: u8) -> u128 {
    let regions = plan.machines.iter().flat_map(|machine| &machine.regions);
    let of_kind = regions.filter(|region| region.kind.value == kind);
    let ranges: BTreeSet<(u64, u64)> =
        of_kind.map(|region| (region.host.value, region.pages.value)).collect();
    ranges.iter().map(|&(_, pages)| u128::from(pages) * u128::from(PAGE)).sum()
}
