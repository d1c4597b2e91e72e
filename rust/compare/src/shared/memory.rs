//! The memories of a shared allocator, each lent with something on both sides, and how they are asked.
use super::request::{Answer, Call, Look, Request, Sizes};
use crate::lent::Lent;
use crate::ours;
use crate::ours::frames::Frames;
use crate::rng::Rng;

/// A tree, the owners' bytes and, where contents are kept, the frames' words.
#[derive(Clone)]
pub struct Memory {
    pub tree: Lent<u16>,
    pub owners: Lent<u8>,
    pub words: Option<Lent<u64>>,
}

impl Memory {
    /// Memories that hold this.
    pub fn new(tree: &[u16], owners: &[u8], words: Option<&[u64]>, rng: &mut Rng) -> Memory {
        Memory {
            tree: Lent::new(tree, rng),
            owners: Lent::new(owners, rng),
            words: words.map(|words| Lent::new(words, rng)),
        }
    }

    /// How long they are.
    pub fn sizes(&self) -> Sizes {
        Sizes {
            tree: self.tree.words().len(),
            owners: self.owners.words().len(),
            words: self.words.as_ref().map_or(0, |words| words.words().len()),
        }
    }

    /// A call with these memories as they are.
    pub fn call<R>(&self, base: usize, request: R) -> Call<R> {
        Call { request, base, sizes: self.sizes() }
    }

    /// The answer of the proved functions to a request: of those with contents, where contents are kept.
    pub fn ask(&mut self, call: &Call<Request>) -> Answer {
        let (tree, owners) = (self.tree.sized_mut(call.sizes.tree), self.owners.sized_mut(call.sizes.owners));
        match &mut self.words {
            None => ours::allocator::ask(tree, owners, call.base, call.request),
            Some(words) => {
                let words = words.sized_mut(call.sizes.words);
                Frames { tree, owners, words, base: call.base }.ask(call.request)
            }
        }
    }

    /// The answer of the proved functions to a question.
    pub fn look(&self, call: &Call<Look>) -> Answer {
        let (tree, owners) = (self.tree.sized(call.sizes.tree), self.owners.sized(call.sizes.owners));
        ours::allocator::look(tree, owners, call.base, call.request)
    }

    /// The tree and the owners are these, and what stands around all memories is as it was.
    pub fn same_as(&self, tree: &[u16], owners: &[u8]) -> Result<(), String> {
        self.tree.same_as(tree).map_err(|fault| format!("the tree: {fault}"))?;
        self.owners.same_as(owners).map_err(|fault| format!("the owners: {fault}"))?;
        self.is_kept_around()
    }

    /// What stands around all memories is as it was.
    pub fn is_kept_around(&self) -> Result<(), String> {
        self.tree.is_kept_around()?;
        self.owners.is_kept_around()?;
        self.words.as_ref().map_or(Ok(()), Lent::is_kept_around)
    }
}
