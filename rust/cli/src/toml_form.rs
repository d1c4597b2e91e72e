//! A configuration in TOML: the form that people write (docs/cli/README.md). Reading it says for each value on which
//! line it stands. A value that cannot be written in bytes is a fault here; the rules are the proved check's.
use crate::fault::Fault;
use crate::number;
use crate::plan::{kind_called, no_kind, At, Machine, Place, Plan, Pool, Region, KINDS};
use serde::de::{Deserialize, Deserializer, Error, Visitor};
use std::collections::BTreeSet;
use std::fmt;
use toml::Spanned;

/// How many characters a name may have.
const LONGEST_NAME: usize = 64;
/// How many brackets, braces and dots a file may have: nesting costs the reader stack, and no configuration nests deep.
const MOST_NESTING: usize = 16_384;
/// The stack on which a file is read, enough for as much nesting.
const STACK: usize = 128 << 20;
/// How many machines or regions a list may have before it cannot be written in bytes.
const LONGEST_LIST: usize = u16::MAX as usize;

/// A number: an integer, or a string where TOML's integers don't reach; whether the string may have a unit is said.
#[derive(Clone, Copy)]
struct Number<const UNIT: bool>(u64);

/// An address or a size, in bytes.
type Bytes = Number<true>;
/// A number that is none of bytes.
type Count = Number<false>;

/// A kind: a word, or a number.
#[derive(Clone, Copy)]
struct Kind(u8);

/// The whole file.
#[derive(serde::Deserialize)]
#[serde(deny_unknown_fields)]
struct Form {
    pool: PoolForm,
    #[serde(default)]
    machine: Vec<MachineForm>,
}

/// The allocator's region.
#[derive(serde::Deserialize)]
#[serde(deny_unknown_fields, expecting = "a table `[pool]`")]
struct PoolForm {
    host: Spanned<Bytes>,
    pages: Option<Spanned<Count>>,
    size: Option<Spanned<Bytes>>,
}

/// A machine.
#[derive(serde::Deserialize)]
#[serde(deny_unknown_fields, expecting = "a table `[[machine]]`")]
struct MachineForm {
    name: Spanned<String>,
    number: Spanned<Count>,
    #[serde(default)]
    region: Vec<RegionForm>,
}

/// A region of a machine.
#[derive(serde::Deserialize)]
#[serde(deny_unknown_fields, expecting = "a table `[[machine.region]]`")]
struct RegionForm {
    name: Spanned<String>,
    guest: Spanned<Bytes>,
    host: Spanned<Bytes>,
    pages: Option<Spanned<Count>>,
    size: Option<Spanned<Bytes>>,
    kind: Spanned<Kind>,
}

/// Reads a number in either way.
struct NumberVisitor<const UNIT: bool>;

impl<const UNIT: bool> Visitor<'_> for NumberVisitor<UNIT> {
    type Value = u64;

    fn expecting(&self, f: &mut fmt::Formatter) -> fmt::Result {
        let unit = if UNIT { " or \"4 KiB\"" } else { "" };
        write!(f, "a number from 0 to 2^64 - 1, as an integer or as a string like \"0x1000\"{unit}")
    }

    fn visit_i64<E: Error>(self, number: i64) -> Result<u64, E> {
        u64::try_from(number).map_err(|_| E::custom(format!("{number} is below 0")))
    }

    fn visit_str<E: Error>(self, text: &str) -> Result<u64, E> {
        let text = text.trim();
        if UNIT {
            return number::in_bytes(text, number::WITH_UNIT).map_err(E::custom);
        }
        let size = if number::has_unit(text) { " (use `size` for bytes)" } else { "" };
        number::plain(text).map_err(|wrong| E::custom(wrong + size))
    }
}

impl<'de, const UNIT: bool> Deserialize<'de> for Number<UNIT> {
    fn deserialize<D: Deserializer<'de>>(from: D) -> Result<Number<UNIT>, D::Error> {
        from.deserialize_any(NumberVisitor::<UNIT>).map(Number)
    }
}

/// Reads a kind in either way.
struct KindVisitor;

impl Visitor<'_> for KindVisitor {
    type Value = u8;

    fn expecting(&self, f: &mut fmt::Formatter) -> fmt::Result {
        write!(f, "a kind: {}", KINDS.map(|name| format!("\"{name}\"")).join(", "))
    }

    fn visit_i64<E: Error>(self, number: i64) -> Result<u8, E> {
        u8::try_from(number).map_err(|_| E::custom(format!("{number} is not a kind that one byte can hold")))
    }

    fn visit_str<E: Error>(self, word: &str) -> Result<u8, E> {
        kind_called(word).ok_or_else(|| E::custom(no_kind(word)))
    }
}

impl<'de> Deserialize<'de> for Kind {
    fn deserialize<D: Deserializer<'de>>(from: D) -> Result<Kind, D::Error> {
        from.deserialize_any(KindVisitor).map(Kind)
    }
}

/// A file that is read: its name for faults, and where its lines begin.
struct Source<'a> {
    file: &'a str,
    starts: Vec<usize>,
}

impl Source<'_> {
    /// The line on which a byte stands.
    fn line(&self, offset: usize) -> usize {
        self.starts.partition_point(|&start| start <= offset)
    }

    /// A value with its line.
    fn at<T, U>(&self, spanned: &Spanned<T>, value: U) -> At<U> {
        At { value, place: Place::Line(self.line(spanned.start())) }
    }

    /// A fault on the line of a value.
    fn fault<T>(&self, spanned: &Spanned<T>, what: impl fmt::Display) -> Fault {
        Fault::at(self.file, self.line(spanned.start()), what)
    }

    /// A number with its line.
    fn number<const UNIT: bool>(&self, spanned: &Spanned<Number<UNIT>>) -> At<u64> {
        self.at(spanned, spanned.get_ref().0)
    }

    /// The pages, which are given as such or as a size in bytes.
    fn pages(
        &self,
        beside: &Spanned<Bytes>,
        pages: &Option<Spanned<Count>>,
        size: &Option<Spanned<Bytes>>,
    ) -> Result<At<u64>, Fault> {
        match (pages, size) {
            (Some(pages), None) => Ok(self.number(pages)),
            (None, Some(size)) if size.get_ref().0 % number::PAGE == 0 => {
                Ok(self.at(size, size.get_ref().0 / number::PAGE))
            }
            (None, Some(size)) => {
                Err(self.fault(size, "the size is not a multiple of 4096 bytes, which a page has"))
            }
            (Some(_), Some(size)) => {
                Err(self.fault(size, "both `pages` and `size` are given: keep one of them"))
            }
            (None, None) => {
                Err(self.fault(beside, "this region has neither `pages` nor `size`: add one of them"))
            }
        }
    }

    /// A name that can be printed and written in scripts, and that is none of those taken, among which it is then.
    fn name(&self, name: &Spanned<String>, taken: &mut BTreeSet<String>) -> Result<String, Fault> {
        let text = name.get_ref();
        let wrong = if text.is_empty() {
            Some("the name is empty".to_string())
        } else if text.chars().count() > LONGEST_NAME {
            Some(format!("the name has more than {LONGEST_NAME} characters"))
        } else if text.chars().any(|c| c.is_control() || c == '"') {
            Some("the name has a quotation mark or a control character".to_string())
        } else {
            (!taken.insert(text.clone())).then(|| format!("the name `{text}` is taken: names differ"))
        };
        wrong.map_or_else(|| Ok(text.clone()), |what| Err(self.fault(name, what)))
    }

    /// A region, whose name is none of those taken.
    fn region(&self, form: &RegionForm, taken: &mut BTreeSet<String>) -> Result<Region, Fault> {
        Ok(Region {
            name: self.name(&form.name, taken)?,
            guest: self.number(&form.guest),
            host: self.number(&form.host),
            pages: self.pages(&form.host, &form.pages, &form.size)?,
            kind: self.at(&form.kind, form.kind.get_ref().0),
        })
    }

    /// The regions of a machine.
    fn regions(&self, machine: &MachineForm) -> Result<Vec<Region>, Fault> {
        if machine.region.len() > LONGEST_LIST {
            return Err(self.fault(&machine.name, "the machine has more regions than two bytes can count"));
        }
        let mut taken = BTreeSet::new();
        machine.region.iter().map(|form| self.region(form, &mut taken)).collect()
    }

    /// A machine, whose name is none of those taken.
    fn machine(&self, form: &MachineForm, taken: &mut BTreeSet<String>) -> Result<Machine, Fault> {
        let name = self.name(&form.name, taken)?;
        let number = u16::try_from(form.number.get_ref().0)
            .map_err(|_| self.fault(&form.number, "a machine's number is at most 65535"))?;
        Ok(Machine { name, number: self.at(&form.number, number), regions: self.regions(form)? })
    }

    /// The machines of a file.
    fn machines(&self, forms: &[MachineForm]) -> Result<Vec<Machine>, Fault> {
        if forms.len() > LONGEST_LIST {
            return Err(Fault::of(self.file, "there are more machines than two bytes can count"));
        }
        let mut taken = BTreeSet::new();
        forms.iter().map(|form| self.machine(form, &mut taken)).collect()
    }

    /// The configuration that a file is.
    fn plan(&self, form: &Form) -> Result<Plan, Fault> {
        let pool = Pool {
            host: self.number(&form.pool.host),
            pages: self.pages(&form.pool.host, &form.pool.pages, &form.pool.size)?,
        };
        Ok(Plan { machines: self.machines(&form.machine)?, pool })
    }
}

/// Where the lines of a text begin.
fn line_starts(text: &str) -> Vec<usize> {
    std::iter::once(0).chain(text.match_indices('\n').map(|(at, _)| at + 1)).collect()
}

/// Reads the TOML of a file on a stack of its own.
fn parse(file: &str, text: &str) -> Result<Form, Fault> {
    let read = || toml::from_str::<Form>(text);
    let said = std::thread::scope(|scope| {
        let reader = std::thread::Builder::new().stack_size(STACK).spawn_scoped(scope, read);
        reader.map(|reader| reader.join())
    });
    match said {
        Ok(Ok(Ok(form))) => Ok(form),
        Ok(Ok(Err(error))) => Err(not_the_form(file, text, &error)),
        Ok(Err(_)) => Err(Fault::of(file, "the TOML reader broke off: the file is no TOML that it can read")),
        Err(error) => Err(Fault::of(file, format!("there is no memory to read it: {error}"))),
    }
}

/// What the reader of TOML says, with its line and without its own words for the place.
fn not_the_form(file: &str, text: &str, error: &toml::de::Error) -> Fault {
    let said = error.to_string();
    let said = said.rsplit_once(" at line ").map_or(said.as_str(), |(said, _)| said);
    let (said, path) = said.rsplit_once(" for key ").unwrap_or((said, ""));
    let path = path.trim_matches('`');
    let own = quoted_behind("unknown field ", said).and_then(|key| line_of_key(text, path, key));
    match own.or_else(|| error.line_col().map(|(line, _)| line + 1)) {
        Some(line) => Fault::at(file, line, in_words(said, path)),
        None => Fault::of(file, in_words(said, path)),
    }
}

/// What is wrong and what to do, for what the reader of TOML says of a path, which is empty for the whole file.
fn in_words(said: &str, path: &str) -> String {
    let of_key = if path.is_empty() { String::new() } else { format!(" (key `{path}`)") };
    if said == "invalid number" {
        return "TOML has no such integer: from 2^63 on write a string, like \"0xffff_ffff_0000_0000\""
            .to_string();
    }
    if said.ends_with("expected a sequence") {
        return format!("write `[[{path}]]`, with two brackets");
    }
    if path == "pool" && said.starts_with("invalid type: map") {
        return "write `[pool]`, with one bracket".to_string();
    }
    match quoted_behind("missing field ", said) {
        Some("pool") => "there is no `[pool]`: add one with host and size".to_string(),
        Some(missing) => format!("there is no `{missing}`: add it{of_key}"),
        None => format!("{}{of_key}", said.replacen("unknown field", "unknown key", 1)),
    }
}

/// What stands between backquotes behind the words with which a text begins.
fn quoted_behind<'a>(words: &str, text: &'a str) -> Option<&'a str> {
    let (quoted, _) = text.strip_prefix(words)?.strip_prefix('`')?.split_once('`')?;
    Some(quoted)
}

/// The first line that has a key of a table, by the table's path, where headings and keys stand on lines of their own.
fn line_of_key(text: &str, table: &str, key: &str) -> Option<usize> {
    let path = if table.is_empty() { key.to_string() } else { format!("{table}.{key}") };
    let mut within = "";
    for (i, line) in text.lines().enumerate() {
        let heading = heading(line);
        within = heading.unwrap_or(within);
        if heading == Some(path.as_str()) || (within == table && has_key(line, key)) {
            return Some(i + 1);
        }
    }
    None
}

/// The path of the table that a line heads.
fn heading(line: &str) -> Option<&str> {
    let (path, _) = line.trim_start().strip_prefix('[')?.split_once(']')?;
    Some(path.trim_start_matches('[').trim())
}

/// Whether a line gives a key its value.
fn has_key(line: &str, key: &str) -> bool {
    let behind = line.trim_start().strip_prefix(key);
    behind.map_or(false, |behind| behind.trim_start().starts_with('='))
}

/// The configuration that a file's text is, or what is wrong with the text.
pub fn read(file: &str, text: &str) -> Result<Plan, Fault> {
    let nesting = text.bytes().filter(|byte| b"[{.".contains(byte)).count();
    if nesting > MOST_NESTING {
        let what = format!(
            "there are {nesting} brackets, braces and dots, and no configuration needs above {MOST_NESTING}"
        );
        return Err(Fault::of(file, what));
    }
    let form = parse(file, text)?;
    Source { file, starts: line_starts(text) }.plan(&form)
}

#[cfg(test)]
mod tests {
    use super::read;
    use crate::plan::Place;

    /// A file with a pool and one machine, and the region of it that these lines describe.
    fn with_region(lines: &str) -> String {
        format!("[pool]\nhost = 0x9000\npages = 1\n[[machine]]\nname = 'a'\nnumber = 1\n[[machine.region]]\n{lines}\n")
    }

    /// The line and the text of a file's fault.
    fn fault(text: &str) -> (Option<usize>, String) {
        let fault = read("f.toml", text).unwrap_err();
        (fault.line, fault.what)
    }

    #[test]
    fn knows_the_line_of_each_value() {
        let text = with_region(
            "name = 'r'\nkind = 'shared'\nhost = '0x8000_0000_0000_0000'\nguest = 0x1000\nsize = '8 KiB'",
        );
        let plan = read("f.toml", &text).unwrap();
        let region = &plan.machines[0].regions[0];
        let places = [region.kind.place, region.host.place, region.guest.place, region.pages.place];
        assert_eq!(places, [9, 10, 11, 12].map(Place::Line));
        assert_eq!(
            (region.host.value, region.guest.value, region.pages.value, region.kind.value),
            (1 << 63, 4096, 2, 2)
        );
        assert_eq!((plan.pool.host.value, plan.pool.host.place), (0x9000, Place::Line(2)));
        assert_eq!(plan.machines[0].number.place, Place::Line(6));
    }

    #[test]
    fn knows_the_line_in_inline_tables() {
        let machines = "machine = [\n  { name = 'a', number = 1 },\n  { name = 'b', number = 2 }]\n";
        let plan = read("f.toml", &format!("{machines}pool = {{ host = 0, pages = 1 }}")).unwrap();
        assert_eq!(plan.machines[1].number.place, Place::Line(3));
    }

    #[test]
    fn names_the_line_of_what_is_no_number() {
        let rest = "name = 'r'\nkind = 0\npages = 1\nguest = 0";
        for (host, said) in [
            ("-1", "-1 is below 0"),
            ("'x'", "`x` is no number: write it like 4096, 0x1000 or 4 KiB"),
            (
                "0x8000_0000_0000_0000",
                "TOML has no such integer: from 2^63 on write a string, like \"0xffff_ffff_0000_0000\"",
            ),
            ("1.5", "floating point"),
            ("true", "boolean"),
        ] {
            let (line, what) = fault(&with_region(&format!("{rest}\nhost = {host}")));
            assert_eq!(line, Some(12), "{what}");
            assert!(what.contains(said), "{what}");
        }
    }

    #[test]
    fn names_the_line_of_wrong_values() {
        let rest = "guest = 0\nhost = 0";
        let cases = [
            ("name = 'r'\nkind = 'odd'\npages = 1", 9, "`odd` is no kind"),
            ("name = 'r'\nkind = 256\npages = 1", 9, "256 is not a kind"),
            ("name = ''\nkind = 0\npages = 1", 8, "empty"),
            ("name = 'a\"b'\nkind = 0\npages = 1", 8, "quotation mark"),
            ("name = 'r'\nkind = 0\nsize = 5000", 10, "not a multiple of 4096"),
            (
                "name = 'r'\nkind = 0\npages = '4 KiB'",
                10,
                "`4 KiB` has a unit: write a plain number (use `size` for bytes)",
            ),
            ("name = 'r'\nkind = 0\npages = 'x'", 10, "`x` is no number: write it like 4096 or 0x1000 (key"),
            ("name = 'r'\nkind = 0\npages = 1\nsize = 4096", 11, "both `pages` and `size`"),
            ("name = 'r'\nkind = 0", 11, "neither `pages` nor `size`"),
        ];
        for (lines, line, said) in cases {
            let (at, what) = fault(&with_region(&format!("{lines}\n{rest}")));
            assert!(at == Some(line) && what.contains(said), "{at:?}: {what}");
        }
    }

    #[test]
    fn names_differ_and_are_short() {
        let machine = |name: &str| format!("[[machine]]\nname = '{name}'\nnumber = 1\n");
        let pool = "[pool]\nhost = 0\npages = 1\n";
        let (line, what) = fault(&[pool, &machine("a"), &machine("a")].concat());
        assert!(line == Some(8) && what.contains("`a` is taken"), "{what}");
        let (line, what) = fault(&[pool, &machine(&"é".repeat(65))].concat());
        assert!(line == Some(5) && what.contains("more than 64"), "{what}");
        assert!(read("f.toml", &[pool, &machine(&"é".repeat(64))].concat()).is_ok());
    }

    #[test]
    fn addresses_and_sizes_may_have_units() {
        let text = with_region("name = 'r'\nkind = 0\nguest = '4 KiB'\nhost = '8KiB'\nsize = '1 MiB'");
        let plan = read("f.toml", &text).unwrap();
        let region = &plan.machines[0].regions[0];
        assert_eq!((region.guest.value, region.host.value, region.pages.value), (4096, 8192, 256));
        let (line, what) = fault(&text.replace("number = 1", "number = '1 KiB'"));
        assert!(line == Some(6) && what.starts_with("`1 KiB` has a unit"), "{line:?} {what}");
    }

    #[test]
    fn tables_that_are_none_are_named() {
        let pool = "[pool]\nhost = 0\npages = 1\n";
        let machine = "[[machine]]\nname = 'a'\nnumber = 1\n";
        let cases = [
            ("pool = 5".to_string(), 1, "expected a table `[pool]`"),
            (format!("{pool}[machine]\nname = 'a'\n"), 4, "write `[[machine]]`, with two brackets"),
            (
                format!("{pool}{machine}[machine.region]\nname = 'r'\n"),
                7,
                "write `[[machine.region]]`, with two brackets",
            ),
            ("[[pool]]\nhost = 0\n".to_string(), 1, "write `[pool]`, with one bracket"),
            (format!("machine = [5]\n{pool}"), 1, "expected a table `[[machine]]`"),
            ("\n[pool]\npages = 1\n".to_string(), 2, "there is no `host`: add it (key `pool`)"),
        ];
        for (text, line, wanted) in cases {
            let (at, what) = fault(&text);
            assert!(at == Some(line) && what.contains(wanted), "{text}: {at:?} {what}");
        }
        assert_eq!(fault(machine).1, "there is no `[pool]`: add one with host and size");
    }

    #[test]
    fn keys_that_are_none_are_named_with_their_lines() {
        let pool = "\n[pool]\nhost = 0\npages = 1\n";
        let cases = [
            (format!("{pool}colour = 'red'\n"), 5, "unknown key `colour`, expected one of `host`"),
            (format!("colours = 1{pool}"), 1, "unknown key `colours`"),
            (format!("{pool}[[machine]]\nname = 'a'\nnumber = 1\n  host=1\n"), 8, "unknown key `host`"),
            (format!("{pool}[[machine]]\ncolour=1\nname='a'\nnumber=1\n[[machine.region]]\n"), 6, "`colour`"),
            (format!("{pool}[pool.colour]\n[[machine]]\ncolour = 1\n"), 5, "unknown key `colour`"),
            (format!("\n[polo]\nhost = 1\n{pool}"), 2, "unknown key `polo`, expected `pool` or `machine`"),
            (format!("{pool}\n[[ machines ]] # two\nhost = 1\n"), 6, "unknown key `machines`"),
            ("pool = { host = 0, colour = 1, pages = 1 }".to_string(), 1, "unknown key `colour`"),
        ];
        for (text, line, wanted) in cases {
            let (at, what) = fault(&text);
            assert!(at == Some(line) && what.contains(wanted), "{text}: {at:?} {what}");
        }
    }

    #[test]
    fn refuses_what_is_not_the_form() {
        let (line, what) = fault("[pool]\nhost = 0\npages = = 1\n");
        assert!(line == Some(3) && what.contains("expected"), "{line:?} {what}");
        let (line, what) = fault("[pool]\nhost = 0\npages = 1\n[[machine]]\nname = 'a'\nnumber = 65536\n");
        assert!(line == Some(6) && what.contains("at most 65535"), "{line:?} {what}");
    }

    #[test]
    fn deep_nesting_is_a_fault() {
        let deep = super::MOST_NESTING;
        for text in [
            "[".repeat(deep),
            format!("a{} = 1", ".a".repeat(deep)),
            "a=[".to_string() + &"[".repeat(deep - 1),
        ] {
            assert!(read("f.toml", &text).is_err());
        }
        assert!(fault(&"{".repeat(deep + 1)).1.contains("brackets, braces and dots"));
        let (_, what) = fault(&("x = ".to_string() + &"{a=".repeat(deep)));
        assert!(!what.contains("broke off"), "{what}");
    }
}
