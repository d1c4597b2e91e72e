//! What a line's words ask for: one request, in the words of docs/cli/README.md.
use super::words::Word;
use crate::number;
use crate::plan::{kind_called, no_kind, Machine, Plan, Region};
use replayframes::{self as frames, Kind, Request, Which};

/// The requests, as a message shows them where a line is not understood.
const REQUESTS: &str = "add, remove, remove whole, insert region R [for S], remove region R [for S], \
    translate ADDRESS [for S], alloc [N [align A]], free ADDRESS [count N]";

/// The words of a line that are not read yet, the configuration that gives names their meaning, and whether the line
/// stands in a list.
pub struct Words<'a> {
    words: &'a [Word],
    plan: &'a Plan,
    in_list: bool,
}

/// A machine that asks: by its number, which may be none's, and by its name where it has one.
#[derive(Clone, Debug, PartialEq, Eq)]
pub struct Asker {
    pub name: String,
    pub number: u64,
}

/// What is wrong with a line.
type Wrong = String;

impl<'a> Words<'a> {
    /// All the words of a line, which may stand in a list.
    pub fn new(words: &'a [Word], plan: &'a Plan, in_list: bool) -> Words<'a> {
        Words { words, plan, in_list }
    }

    /// Takes the next word.
    fn next(&mut self) -> Option<&'a Word> {
        let (first, rest) = self.words.split_first()?;
        self.words = rest;
        Some(first)
    }

    /// Takes the next word if it is this keyword.
    pub fn take(&mut self, keyword: &str) -> bool {
        let is = self.words.first().map_or(false, |word| !word.quoted && word.text == keyword);
        if is {
            self.words = &self.words[1..];
        }
        is
    }

    /// Nothing may be left.
    pub fn end(&self) -> Result<(), Wrong> {
        match self.words.first() {
            None => Ok(()),
            Some(word) => Err(format!("`{}` is too much: the request ends before it", word.text)),
        }
    }

    /// Takes a number as it is read.
    fn number_by(
        &mut self,
        what: &str,
        read: impl FnOnce(&str) -> Result<u64, String>,
    ) -> Result<u64, Wrong> {
        let word =
            self.next().ok_or_else(|| format!("{what} is missing: write a number like 512 or 0x1000"))?;
        read(&word.text).map_err(|wrong| format!("{what}: {wrong}"))
    }

    /// Takes a number that is none of bytes.
    fn number(&mut self, what: &str) -> Result<u64, Wrong> {
        self.number_by(what, number::plain)
    }

    /// Takes an address, which may have a unit.
    fn address(&mut self, what: &str) -> Result<u64, Wrong> {
        self.number_by(what, |text| number::in_bytes(text, number::PLAIN))
    }

    /// Takes a keyword of a region in numbers.
    fn keyword(&mut self, keyword: &str) -> Result<(), Wrong> {
        if self.take(keyword) {
            return Ok(());
        }
        Err(format!("`{keyword}` is missing: a region in numbers is `guest G host H pages P kind K`"))
    }

    /// Takes a keyword and the address behind it.
    fn named_address(&mut self, keyword: &str) -> Result<u64, Wrong> {
        self.keyword(keyword)?;
        self.address(keyword)
    }

    /// Takes the machine that asks.
    pub fn asker(&mut self) -> Result<Asker, Wrong> {
        if self.take("machine") {
            return self.number("the machine's number").map(|number| self.numbered(number));
        }
        let word = self.next().ok_or("the machine is missing")?;
        match word.text.strip_prefix('#') {
            Some(digits) if !word.quoted => number::plain(digits).map(|number| self.numbered(number)),
            _ => self.called(&word.text),
        }
    }

    /// The asker with a number, which has a name if the configuration has the machine.
    fn numbered(&self, number: u64) -> Asker {
        let name = self.plan.place_of(number).map(|place| self.plan.machines[place].name.clone());
        Asker { name: name.unwrap_or_else(|| format!("machine {number}")), number }
    }

    /// The asker with a name.
    fn called(&self, name: &str) -> Result<Asker, Wrong> {
        let place = self
            .plan
            .place_called(name)
            .ok_or_else(|| format!("{}; `machine 9` names one by its number", self.no_machine(name)))?;
        Ok(Asker { name: name.to_string(), number: u64::from(self.plan.machines[place].number.value) })
    }

    /// What is said of a name that is no machine's.
    fn no_machine(&self, name: &str) -> Wrong {
        let names = names(self.plan.machines.iter().map(|machine| machine.name.as_str()));
        format!("there is no machine `{name}`: the configuration has {names}")
    }

    /// What is to be written where a request is wrong or missing.
    fn requests(&self) -> String {
        format!("write one of {REQUESTS}{}", if self.in_list { "" } else { ", begin" })
    }

    /// Takes a request of a machine, and all the words that are left.
    pub fn request(&mut self, asker: &Asker) -> Result<Request, Wrong> {
        let verb = self.next().ok_or_else(|| format!("the request is missing: {}", self.requests()))?;
        let request = match verb.text.as_str() {
            _ if verb.quoted => Err(self.no_request(verb)),
            "add" => Ok(Request::AddZone),
            "remove" => self.remove(asker),
            "insert" => self.region(asker).map(|(which, region)| Request::Insert(which, region)),
            "translate" => self.translate(),
            "alloc" => self.alloc(),
            "free" => self.free(),
            "begin" => {
                Err("a list cannot begin here: lists don't nest, and `begin` stands behind a machine"
                    .to_string())
            }
            _ => Err(self.no_request(verb)),
        }?;
        self.end().map(|()| request)
    }

    /// What is said of a word that is no request.
    fn no_request(&self, word: &Word) -> Wrong {
        format!("`{}` is no request: {}", word.text, self.requests())
    }

    /// What stands behind `remove`.
    fn remove(&mut self, asker: &Asker) -> Result<Request, Wrong> {
        if self.words.is_empty() {
            return Ok(Request::RemoveZone);
        }
        if self.take("whole") {
            return Ok(Request::RemoveZoneWhole);
        }
        self.region(asker).map(|(which, region)| Request::Remove(which, region))
    }

    /// What stands behind `translate`.
    fn translate(&mut self) -> Result<Request, Wrong> {
        let address = self.address("the address")?;
        Ok(Request::Translate { which: self.set()?, address })
    }

    /// What stands behind `alloc`.
    fn alloc(&mut self) -> Result<Request, Wrong> {
        if self.words.is_empty() {
            return Ok(Request::Alloc);
        }
        let size = self.number("the number of frames")?;
        let align = if self.take("align") { self.number("the alignment")? } else { 1 };
        if !align.is_power_of_two() {
            return Err(format!(
                "the alignment {align} is no power of two: write 1, 2, 4, 8 and so on, in frames"
            ));
        }
        Ok(Request::AllocContiguous { size, align_log2: u64::from(align.trailing_zeros()) })
    }

    /// What stands behind `free`.
    fn free(&mut self) -> Result<Request, Wrong> {
        let address = self.address("the address")?;
        if self.take("count") {
            return Ok(Request::DeallocContiguous { address, count: self.number("the number of frames")? });
        }
        Ok(Request::Dealloc { address })
    }

    /// Takes `region`, the region, and the set that it is for.
    fn region(&mut self, asker: &Asker) -> Result<(Which, frames::Region), Wrong> {
        if !self.take("region") {
            return Err(
                "`region` is missing: write `region NAME`, or `region guest G host H pages P kind K`"
                    .to_string(),
            );
        }
        let in_numbers = self.words.first().map_or(false, |word| !word.quoted && word.text == "guest");
        let region = if in_numbers { self.region_in_numbers()? } else { self.region_by_name(asker)? };
        Ok((self.set()?, region))
    }

    /// Takes a region's four numbers.
    fn region_in_numbers(&mut self) -> Result<frames::Region, Wrong> {
        let (guest, host) = (self.named_address("guest")?, self.named_address("host")?);
        self.keyword("pages")?;
        Ok(frames::Region { guest, host, pages: self.number("pages")?, kind: self.kind()? })
    }

    /// Takes `kind` and a kind.
    fn kind(&mut self) -> Result<Kind, Wrong> {
        let word = if self.take("kind") { self.next() } else { None };
        let word =
            word.ok_or("the kind is missing: write `kind ordinary`, `kind device` or `kind shared`")?;
        let kind = kind_called(&word.text).and_then(|kind| Kind::from_number(u64::from(kind)));
        kind.ok_or_else(|| no_kind(&word.text))
    }

    /// Takes the name of a region of the asker's, or of another machine's behind that machine's name and a dot.
    fn region_by_name(&mut self, asker: &Asker) -> Result<frames::Region, Wrong> {
        let word = self.next().ok_or("the region's name is missing")?;
        let own = self.plan.place_of(asker.number).map(|place| &self.plan.machines[place]);
        let found = own
            .and_then(|machine| machine.region_called(&word.text))
            .or_else(|| self.at_dots(&word.text).find_map(|(machine, region)| machine.region_called(region)));
        frames_region(found.ok_or_else(|| self.no_region(own, &word.text))?)
    }

    /// The machines whose name stands before a dot of a text, each with what stands behind the dot.
    fn at_dots<'t>(&self, text: &'t str) -> impl Iterator<Item = (&'a Machine, &'t str)> + 't
    where
        'a: 't,
    {
        let plan = self.plan;
        text.match_indices('.').filter_map(move |(dot, _)| {
            Some((&plan.machines[plan.place_called(&text[..dot])?], &text[dot + 1..]))
        })
    }

    /// What is said of a name that is no region's, of the asker's own or of another machine's.
    fn no_region(&self, own: Option<&Machine>, name: &str) -> Wrong {
        if let Some((machine, region)) = self.at_dots(name).next() {
            return format!("{} has no region `{region}`: it has {}", machine.name, regions_of(machine));
        }
        if let Some((machine, _)) = name.split_once('.') {
            return self.no_machine(machine);
        }
        let own = own.map_or_else(String::new, |own| format!("{} has {}, and ", own.name, regions_of(own)));
        format!("there is no region `{name}`: {own}`MACHINE.REGION` names another's")
    }

    /// Takes `for` and a set, which is the processors' where there is none.
    fn set(&mut self) -> Result<Which, Wrong> {
        if !self.take("for") {
            return Ok(Which::Processors);
        }
        if self.take("processors") {
            return Ok(Which::Processors);
        }
        if self.take("devices") {
            return Ok(Which::Devices);
        }
        let wrong = self
            .next()
            .map_or_else(|| "the set is missing".to_string(), |word| format!("`{}` is no set", word.text));
        Err(format!("{wrong}: write `for processors` or `for devices`"))
    }
}

/// The names of a machine's regions, for a message.
fn regions_of(machine: &Machine) -> String {
    names(machine.regions.iter().map(|region| region.name.as_str()))
}

/// Names in a row, for a message.
fn names<'a>(names: impl Iterator<Item = &'a str>) -> String {
    let names: Vec<&str> = names.collect();
    if names.is_empty() {
        return "none".to_string();
    }
    names.join(", ")
}

/// A region of a plan as requests have it. Its kind is one that there is where the plan was accepted.
fn frames_region(region: &Region) -> Result<frames::Region, Wrong> {
    let kind = Kind::from_number(u64::from(region.kind.value));
    let kind = kind.ok_or_else(|| format!("the region `{}` is of no kind that there is", region.name))?;
    Ok(frames::Region { guest: region.guest.value, host: region.host.value, pages: region.pages.value, kind })
}
