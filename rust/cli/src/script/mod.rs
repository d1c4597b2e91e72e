//! A script: requests of machines, one a line, and lists of them. All of it is read before anything is run.
pub mod grammar;
pub mod words;

use crate::fault::Fault;
use crate::plan::Plan;
use grammar::{Asker, Words};
use replayframes::Request;
use words::Line;

/// How many lines a script may have.
const MOST_LINES: usize = 1_000_000;
/// How many faults are told of one script.
const MOST_FAULTS: usize = 20;

/// What one machine asks at once.
#[derive(Clone, Debug)]
pub struct Item {
    pub line: usize,
    pub asker: Asker,
    pub what: What,
    /// The lines of comment directly above it.
    pub story: Vec<String>,
}

/// One request, or a list that is done whole or not at all.
#[derive(Clone, Debug)]
pub enum What {
    One(Member),
    List(Vec<Member>),
}

/// One request: its line, its words as they stand there, and what they mean.
#[derive(Clone, Debug)]
pub struct Member {
    pub line: usize,
    pub text: String,
    pub request: Request,
}

/// What is known of a script while its lines are read.
struct Reading<'a> {
    file: &'a str,
    plan: &'a Plan,
    items: Vec<Item>,
    open: Option<Item>,
    story: Vec<String>,
    faults: Vec<Fault>,
}

impl Reading<'_> {
    /// Reads a line, and keeps what is wrong with it.
    fn line(&mut self, number: usize, text: &str) {
        let read = words::split(text).and_then(|line| self.parts(number, &line));
        if let Err(wrong) = read {
            self.faults.push(Fault::at(self.file, number, wrong));
        }
    }

    /// Reads the parts of a line: a comment, the end of a list, a member of a list, or a machine's request.
    fn parts(&mut self, number: usize, line: &Line) -> Result<(), String> {
        if line.words.is_empty() {
            self.comment(line.comment);
            return Ok(());
        }
        let mut words = Words::new(&line.words, self.plan, self.open.is_some());
        if words.take("end") {
            self.close()?;
            return words.end();
        }
        match &mut self.open {
            Some(item) => push_member(item, number, line, words),
            None => self.item(number, line, words),
        }
    }

    /// Keeps a comment's text for the item below it; an empty line parts them.
    fn comment(&mut self, comment: Option<&str>) {
        match comment {
            Some(text) => self.story.push(text.to_string()),
            None => self.story.clear(),
        }
    }

    /// Reads a machine's request, or the begin of its list.
    fn item(&mut self, number: usize, line: &Line, mut words: Words) -> Result<(), String> {
        let story = std::mem::take(&mut self.story);
        let asker = words.asker()?;
        if words.take("begin") {
            self.open = Some(Item { line: number, asker, what: What::List(Vec::new()), story });
            return words.end();
        }
        let request = words.request(&asker)?;
        let what = What::One(Member { line: number, text: line.request.to_string(), request });
        self.items.push(Item { line: number, asker, what, story });
        Ok(())
    }

    /// Ends the open list.
    fn close(&mut self) -> Result<(), String> {
        let item =
            self.open.take().ok_or("there is no list to end: write `MACHINE begin` before its requests")?;
        self.story.clear();
        self.items.push(item);
        Ok(())
    }

    /// The items, where no line is wrong and no list is open.
    fn end(mut self) -> Result<Vec<Item>, Vec<Fault>> {
        if let Some(item) = &self.open {
            self.faults.push(Fault::at(
                self.file,
                item.line,
                "the list that begins here has no `end`: add a line `end`",
            ));
        }
        if self.faults.is_empty() {
            return Ok(self.items);
        }
        self.faults.truncate(MOST_FAULTS);
        Err(self.faults)
    }
}

/// Reads a request of a list behind those that it has.
fn push_member(item: &mut Item, number: usize, line: &Line, mut words: Words) -> Result<(), String> {
    let request = words.request(&item.asker).map_err(|wrong| {
        format!(
            "{wrong} (in the list of {} that begins on line {}, whose requests name no machine)",
            item.asker.name, item.line
        )
    })?;
    if let What::List(members) = &mut item.what {
        members.push(Member { line: number, text: line.request.to_string(), request });
    }
    Ok(())
}

/// The items of a script's text, or all that is wrong with it.
pub fn read(file: &str, text: &str, plan: &Plan) -> Result<Vec<Item>, Vec<Fault>> {
    let mut reading =
        Reading { file, plan, items: Vec::new(), open: None, story: Vec::new(), faults: Vec::new() };
    for (i, line) in text.lines().enumerate() {
        if i == MOST_LINES {
            return Err(vec![Fault::at(
                file,
                i + 1,
                format!("a script has at most {MOST_LINES} lines: split it"),
            )]);
        }
        reading.line(i + 1, line);
    }
    reading.end()
}

#[cfg(test)]
mod tests {
    use super::{read, Item, What};
    use crate::plan::Plan;
    use crate::toml_form;
    use replayframes::{Kind, Region, Request, Which};

    /// Machines `replay` (1), which has a region `memory`, and `big graphics` (2), which has `a.b`.
    fn plan() -> Plan {
        let region = |name, host| {
            format!("[[machine.region]]\nname = '{name}'\nguest = 0\nhost = {host}\npages = 1\nkind = 2\n")
        };
        let machine = |name, number| format!("[[machine]]\nname = '{name}'\nnumber = {number}\n");
        let parts =
            [machine("replay", 1), region("memory", 4096), machine("big graphics", 2), region("a.b", 8192)];
        toml_form::read("plan.toml", &format!("[pool]\nhost = 0\npages = 1\n{}", parts.concat())).unwrap()
    }

    /// The items of a text.
    fn items(text: &str) -> Vec<Item> {
        read("script", text, &plan()).unwrap()
    }

    /// The request of a line, and who asks.
    fn request(line: &str) -> (u64, Request) {
        let item = items(line).remove(0);
        match item.what {
            What::One(member) => (item.asker.number, member.request),
            What::List(_) => panic!("{line} is a list"),
        }
    }

    /// The lines of a list's members.
    fn lines(item: &Item) -> Vec<usize> {
        match &item.what {
            What::List(members) => members.iter().map(|member| member.line).collect(),
            What::One(member) => panic!("{} is no list", member.text),
        }
    }

    /// The faults of a text, each with its line.
    fn faults(text: &str) -> Vec<String> {
        read("script", text, &plan()).unwrap_err().iter().map(|fault| fault.to_string()).collect()
    }

    #[test]
    fn reads_every_request() {
        let memory = Region { guest: 0, host: 4096, pages: 1, kind: Kind::Shared };
        let cases = [
            ("add", Request::AddZone),
            ("remove", Request::RemoveZone),
            ("remove whole", Request::RemoveZoneWhole),
            ("insert region memory", Request::Insert(Which::Processors, memory)),
            ("insert region memory for processors", Request::Insert(Which::Processors, memory)),
            ("insert region memory for devices", Request::Insert(Which::Devices, memory)),
            ("remove region memory", Request::Remove(Which::Processors, memory)),
            ("remove region \"memory\" for devices", Request::Remove(Which::Devices, memory)),
            (
                "insert region guest 0 host 0x1000 pages 1 kind shared",
                Request::Insert(Which::Processors, memory),
            ),
            (
                "insert region guest 0KiB host 4KiB pages 1 kind shared",
                Request::Insert(Which::Processors, memory),
            ),
            ("translate 0x10", Request::Translate { which: Which::Processors, address: 16 }),
            ("translate 4KiB", Request::Translate { which: Which::Processors, address: 4096 }),
            ("translate 16 for devices", Request::Translate { which: Which::Devices, address: 16 }),
            ("alloc", Request::Alloc),
            ("alloc 512", Request::AllocContiguous { size: 512, align_log2: 0 }),
            ("alloc 512 align 512", Request::AllocContiguous { size: 512, align_log2: 9 }),
            ("free 0x2000", Request::Dealloc { address: 8192 }),
            ("free 0x2000 count 3", Request::DeallocContiguous { address: 8192, count: 3 }),
        ];
        for (words, wanted) in cases {
            assert_eq!(request(&format!("replay {words}")), (1, wanted), "{words}");
        }
    }

    #[test]
    fn names_machines_in_every_way() {
        for asker in ["replay", "machine 1", "#1", "\"replay\""] {
            assert_eq!(request(&format!("{asker} add")), (1, Request::AddZone), "{asker}");
        }
        assert_eq!(request("\"big graphics\" add").0, 2);
        assert_eq!(items("machine 9 add")[0].asker.name, "machine 9");
    }

    #[test]
    fn names_regions_of_other_machines() {
        let theirs = Region { guest: 0, host: 8192, pages: 1, kind: Kind::Shared };
        let wanted = (1, Request::Insert(Which::Processors, theirs));
        assert_eq!(request("replay insert region \"big graphics.a.b\""), wanted);
        assert_eq!(request("machine 9 insert region replay.memory").0, 9);
    }

    #[test]
    fn a_list_is_one_machines() {
        let items =
            items("# a story\nreplay begin\n  alloc\n  # a word between\n\n  free 0\nend\nreplay remove\n");
        assert_eq!((items.len(), items[0].line, items[1].line), (2, 2, 8));
        assert_eq!((items[0].story.join("/"), items[1].story.len()), ("a story".to_string(), 0));
        assert_eq!(lines(&items[0]), [3, 6]);
    }

    #[test]
    fn a_list_may_be_empty() {
        assert_eq!(lines(&items("replay begin\nend\n")[0]), [0; 0]);
    }

    #[test]
    fn mistakes_are_named_with_their_lines() {
        let cases = [
            ("replay", "the request is missing"),
            ("nobody add", "there is no machine `nobody`: the configuration has replay, big graphics"),
            ("replay ad", "`ad` is no request"),
            ("replay \"add\"", "`add` is no request"),
            ("replay add now", "`now` is too much"),
            ("replay alloc many", "the number of frames: `many` is no number: write it like 4096 or 0x1000"),
            ("replay alloc 4KiB", "the number of frames: `4KiB` has a unit: write a plain number"),
            ("replay alloc 4 align 4KiB", "the alignment: `4KiB` has a unit: write a plain number"),
            ("replay free 0 count 1KiB", "the number of frames: `1KiB` has a unit: write a plain number"),
            ("machine 1KiB add", "the machine's number: `1KiB` has a unit: write a plain number"),
            ("#1KiB add", "`1KiB` has a unit: write a plain number"),
            ("replay free x", "the address: `x` is no number: write it like 4096 or 0x1000"),
            ("replay alloc 4 align 3", "the alignment 3 is no power of two"),
            ("replay alloc 4 align 0", "the alignment 0 is no power of two"),
            ("replay free", "the address is missing"),
            ("replay free 0 count", "the number of frames is missing"),
            ("replay insert memory", "`region` is missing"),
            ("replay insert region", "the region's name is missing"),
            ("replay insert region none", "there is no region `none`: replay has memory"),
            ("replay insert region big", "replay has memory, and `MACHINE.REGION` names another's"),
            ("replay insert region \"big graphics.c\"", "big graphics has no region `c`: it has a.b"),
            ("replay insert region replay.a.b", "replay has no region `a.b`: it has memory"),
            (
                "replay insert region nobody.memory",
                "there is no machine `nobody`: the configuration has replay",
            ),
            ("machine 9 insert region none", "there is no region `none`: `MACHINE.REGION` names another's"),
            ("replay insert region guest 0 host 0 pages 1", "the kind is missing"),
            ("replay insert region guest 0 host 0 pages 1 kind", "the kind is missing"),
            (
                "replay insert region guest 0 host 0 pages 1 kind odd",
                "`odd` is no kind: write ordinary, device, shared",
            ),
            ("replay insert region guest 0 host 0 pages 4KiB kind shared", "pages: `4KiB` has a unit"),
            ("replay insert region guest 0 pages 1", "`host` is missing"),
            ("replay insert region guest 0 host 0 kind shared", "`pages` is missing"),
            (
                "replay insert region memory for",
                "the set is missing: write `for processors` or `for devices`",
            ),
            (
                "replay insert region memory for gpus",
                "`gpus` is no set: write `for processors` or `for devices`",
            ),
            ("machine add", "the machine's number: `add` is no number"),
            ("#1x add", "`1x` is no number"),
            ("replay translate 0x1_0000_0000_0000_0000", "above 2^64 - 1"),
            ("end", "there is no list to end"),
            ("\"replay add", "a quotation mark is not closed"),
        ];
        for (line, wanted) in cases {
            let said = faults(&format!("\n{line}\n"));
            assert!(
                said.len() == 1 && said[0].starts_with("script:2: ") && said[0].contains(wanted),
                "{line}: {said:?}"
            );
        }
    }

    #[test]
    fn lists_that_are_not_right_are_named() {
        assert!(
            faults("replay begin\nalloc\n")[0].contains("script:1: the list that begins here has no `end`")
        );
        assert!(faults("replay begin\nreplay alloc\nend\n")[0].contains("script:2: `replay` is no request"));
        assert!(faults("replay begin\nbegin\nend\n")[0].contains("script:2: a list cannot begin here"));
        assert!(faults("replay begin\nend now\n")[0].contains("script:2: `now` is too much"));
    }

    #[test]
    fn begin_is_offered_where_a_list_may_begin() {
        for wrong in ["", "odd", "\"add\""] {
            assert!(faults(&format!("replay {wrong}\n"))[0].ends_with("free ADDRESS [count N], begin"));
        }
        for wrong in ["odd", "\"add\""] {
            let said = faults(&format!("replay begin\n{wrong}\nend\n")).remove(0);
            assert!(said.contains("free ADDRESS [count N] (in the list of replay"), "{said}");
        }
    }

    #[test]
    fn all_mistakes_are_told_up_to_twenty() {
        assert_eq!(faults("x\ny\nreplay add\nz\n").len(), 3);
        assert_eq!(faults(&"x\n".repeat(100)).len(), 20);
    }
}
