//! The picture of the host memory: what each page is, whose it is and who reaches it now, as an SVG file, as one
//! page for a browser, and as text for a terminal.
//!
//! A `Scene` says all that is drawn. Its spans are sorted by host address and don't overlap; every index is one of a
//! machine in `machines`. Names may hold any character. Where a scene breaks these rules the picture is odd, but
//! nothing panics.
mod drawing;
mod facts;
mod layout;
mod legend;
mod looks;
#[cfg(test)]
mod markup;
mod page;
#[cfg(test)]
mod scenes;
mod svg;
mod text;
mod totals;
mod words;

pub use page::html;
pub use svg::svg;
pub use text::text;

/// All that the picture shows.
#[derive(Clone, Debug)]
pub struct Scene {
    pub title: String,
    pub machines: Vec<Machine>,
    pub spans: Vec<Span>,
    pub note: Option<String>,
}

/// A machine of the configuration, and whether it is there now.
#[derive(Clone, Debug)]
pub struct Machine {
    pub name: String,
    pub number: u64,
    pub there: bool,
}

/// A run of host pages that are all alike. The configuration names nothing between two spans that don't touch.
#[derive(Clone, Debug)]
pub struct Span {
    pub host: u64,
    pub pages: u64,
    pub what: What,
    pub reach: Vec<Reach>,
}

/// What a span is: given to one machine, given to several, or frames of the allocator's region.
#[derive(Clone, Debug, PartialEq, Eq)]
pub enum What {
    Given { owner: usize, kind: Kind },
    SharedRegion { owners: Vec<usize> },
    Free,
    Owned { owner: usize },
    Reserved,
}

/// What a machine is given: memory, or a device.
#[derive(Clone, Copy, Debug, PartialEq, Eq)]
pub enum Kind {
    Ordinary,
    Device,
}

/// A machine that reaches a span now, at a guest address, by its processors, its devices or both.
#[derive(Clone, Debug)]
pub struct Reach {
    pub machine: usize,
    pub guest: u64,
    pub processors: bool,
    pub devices: bool,
}

impl Machine {
    /// Whether the machine is there now, in words.
    fn now(&self) -> &'static str {
        if self.there {
            "there"
        } else {
            "not there"
        }
    }
}

impl Span {
    /// The host address behind the last byte.
    fn end(&self) -> u128 {
        u128::from(self.host) + words::bytes(self.pages.into())
    }
}

impl What {
    /// Whether these are frames of the allocator's region.
    fn is_frames(&self) -> bool {
        matches!(self, What::Free | What::Owned { .. } | What::Reserved)
    }

    /// The machines whose it is.
    fn owners(&self) -> &[usize] {
        match self {
            What::Given { owner, .. } | What::Owned { owner } => std::slice::from_ref(owner),
            What::SharedRegion { owners } => owners,
            What::Free | What::Reserved => &[],
        }
    }
}

#[cfg(test)]
mod tests {
    use super::*;

    #[test]
    fn a_scene_that_breaks_the_rules_is_drawn() {
        let scene = scenes::broken();
        assert!(svg(&scene).contains("an unknown machine"));
        assert!(html(&scene).contains("an unknown machine"));
        assert!(text(&scene, 80).contains("an unknown machine"));
    }
}
