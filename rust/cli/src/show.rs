//! A plan as TOML that compiles to the same bytes.
use crate::number::{bytes_of_pages, toml_address};
use crate::plan::{kind_called, kind_name, Machine, Plan, Region};
use std::fmt::Write;

/// The TOML of a plan.
pub fn toml(plan: &Plan) -> String {
    let mut text = String::new();
    push(&mut text, "[pool]", &[("host", toml_address(plan.pool.host.value)), pages(plan.pool.pages.value)]);
    plan.machines.iter().for_each(|machine| push_machine(&mut text, machine));
    text
}

/// Writes a machine behind what there is.
fn push_machine(text: &mut String, machine: &Machine) {
    let number = machine.number.value.to_string();
    push(text, "\n[[machine]]", &[("name", quoted(&machine.name)), ("number", number)]);
    machine.regions.iter().for_each(|region| push_region(text, region));
}

/// Writes a region behind what there is.
fn push_region(text: &mut String, region: &Region) {
    let fields = [
        ("name", quoted(&region.name)),
        ("guest", toml_address(region.guest.value)),
        ("host", toml_address(region.host.value)),
        pages(region.pages.value),
        ("kind", kind(region.kind.value)),
    ];
    push(text, "\n[[machine.region]]", &fields);
}

/// Writes a heading, and a line for each key with its value.
fn push(text: &mut String, heading: &str, fields: &[(&str, String)]) {
    text.push_str(heading);
    text.push('\n');
    for (key, value) in fields {
        let _ = writeln!(text, "{key} = {value}");
    }
}

/// The key and value for pages, with their bytes in a comment.
fn pages(pages: u64) -> (&'static str, String) {
    let digits = if i64::try_from(pages).is_ok() { pages.to_string() } else { quoted(&pages.to_string()) };
    ("pages", format!("{digits}  # {}", bytes_of_pages(pages)))
}

/// A kind by its name, or by its number where there is no such kind.
fn kind(kind: u8) -> String {
    let name = kind_name(kind);
    if kind_called(&name).is_some() {
        quoted(&name)
    } else {
        name
    }
}

/// A name as TOML's string: it has no quotation mark and no control character.
fn quoted(text: &str) -> String {
    format!("\"{}\"", text.replace('\\', "\\\\"))
}

#[cfg(test)]
mod tests {
    use super::toml;
    use crate::bytes_form::{compile, read};
    use crate::toml_form;

    /// The bytes of two machines with regions at both ends of what numbers there are.
    fn bytes() -> Vec<u8> {
        let mut bytes = vec![2, 0, 255, 255, 2, 0];
        for region in [[0u64, 0, 0], [u64::MAX, 1 << 63, u64::MAX]] {
            region.iter().for_each(|number| bytes.extend(number.to_le_bytes()));
            bytes.push(region[0] as u8);
        }
        bytes.extend([255, 255, 0, 0]);
        bytes.extend([u64::MAX.to_le_bytes(), (1u64 << 63).to_le_bytes()].concat());
        bytes
    }

    #[test]
    fn compiles_to_the_same_bytes() {
        let shown = toml(&read(&bytes()).unwrap());
        let again = toml_form::read("shown", &shown).unwrap();
        assert_eq!(compile(&again), bytes(), "{shown}");
    }

    #[test]
    fn keeps_strange_names() {
        let text = "[pool]\nhost = 0\npages = 1\n[[machine]]\nname = 'a\\b # [é'\nnumber = 1\n";
        let plan = toml_form::read("given", text).unwrap();
        assert_eq!(toml_form::read("shown", &toml(&plan)).unwrap().machines[0].name, "a\\b # [é");
    }
}
