//! The tree in good plain Rust with a byte a frame for its owner: what the proved shared allocator is held
//! to for speed. It tests the base, the client, the address and the owner as that does; it trusts the
//! lengths of its memories and the summaries, and it has no proof.
//!
//! No function is inlined into its caller, as none of the proved archive can be.
use super::model::CLIENTS;
use super::request::{FRAME, NOBODY};
use crate::rival::Rival;

/// A tree of a size that it was made with, and the owner of each frame.
pub struct OwnedRival {
    pub tree: Rival,
    pub owners: Vec<u8>,
}

impl OwnedRival {
    /// An allocator of 16 to the power of `depth` frames, all reserved.
    pub fn new(depth: u32) -> OwnedRival {
        OwnedRival { tree: Rival::new(depth), owners: vec![NOBODY; 16_usize.pow(depth)] }
    }

    /// Gives the client the lowest free frame.
    #[inline(never)]
    pub fn alloc(&mut self, base: usize, client: u8) -> Option<usize> {
        if base % FRAME != 0 || client >= CLIENTS {
            return None;
        }
        let k = self.tree.take_lowest()?;
        if k >= (usize::MAX - base) / FRAME {
            return None;
        }
        self.owners[k] = client;
        Some(base + FRAME * k)
    }

    /// The number of the frame at an address, if a client may ask for it.
    fn number(&self, base: usize, client: u8, addr: usize) -> Option<usize> {
        if base % FRAME != 0 || client >= CLIENTS || addr < base || (addr - base) % FRAME != 0 {
            return None;
        }
        Some((addr - base) / FRAME)
    }

    /// The client gives back the frame at an address; false if it is not its own.
    #[inline(never)]
    pub fn dealloc(&mut self, base: usize, client: u8, addr: usize) -> bool {
        match self.number(base, client, addr) {
            Some(k) if self.owners.get(k) == Some(&client) && self.tree.set_free(k) => {
                self.owners[k] = NOBODY;
                true
            }
            _ => false,
        }
    }

    /// Gives the client the lowest run of `size` free frames at a multiple of 2 to the power of `align_log2`.
    #[inline(never)]
    pub fn alloc_contiguous(
        &mut self,
        base: usize,
        client: u8,
        size: usize,
        align_log2: usize,
    ) -> Option<usize> {
        if base % FRAME != 0 || client >= CLIENTS {
            return None;
        }
        let from = self.tree.alloc_contiguous(size, align_log2)?;
        if from + size > (usize::MAX - base) / FRAME {
            return None;
        }
        self.owners[from..from + size].fill(client);
        Some(base + FRAME * from)
    }

    /// The client gives back the frames from an address on; false if one is not its own.
    #[inline(never)]
    pub fn dealloc_contiguous(&mut self, base: usize, client: u8, addr: usize, count: usize) -> bool {
        let k = match self.number(base, client, addr) {
            Some(k) if count > 0 => k,
            _ => return false,
        };
        match self.owners.get_mut(k..k.wrapping_add(count)) {
            Some(owners) if owners.iter().all(|&owner| owner == client) => {
                owners.fill(NOBODY);
                self.tree.insert(k, k + count)
            }
            _ => false,
        }
    }

    /// Makes every frame of the client free, a stretch of them at a time; false if there is no such client.
    #[inline(never)]
    pub fn release_all(&mut self, base: usize, client: u8) -> bool {
        if base % FRAME != 0 || client >= CLIENTS {
            return false;
        }
        let mut k = 0;
        while let Some(away) = self.owners[k..].iter().position(|&owner| owner == client) {
            let from = k + away;
            let its = self.owners[from..].iter().position(|&owner| owner != client);
            k = its.map_or(self.owners.len(), |its| from + its);
            self.owners[from..k].fill(NOBODY);
            self.tree.insert(from, k);
        }
        true
    }

    /// How many frames the client owns.
    #[inline(never)]
    pub fn owned_count(&self, client: u8) -> usize {
        self.owners.iter().filter(|&&owner| owner == client).count()
    }

    /// Whether the summaries agree and every byte is in order.
    #[inline(never)]
    pub fn check(&self, base: usize) -> bool {
        let leaves = &self.tree.words[(self.tree.words.len() - 1) / 16..];
        let places = (usize::MAX - base) / FRAME;
        let right = |k: usize, owner: u8| match (leaves[k / 16] >> (k % 16) & 1, owner) {
            (0, NOBODY) => true,
            (0, client) => client < CLIENTS && k < places,
            (_, owner) => owner == NOBODY && k < places,
        };
        self.tree.check().is_none() && self.owners.iter().enumerate().all(|(k, &owner)| right(k, owner))
    }
}

#[cfg(test)]
mod tests {
    use super::OwnedRival;
    use crate::rng::Rng;
    use crate::shared::model::Model;
    use crate::shared::random;
    use crate::shared::request::{Call, Change, Request, Sizes, State, NOBODY};
    use crate::tree;

    const BASE: usize = 1 << 20;

    /// Asks the rival, and says what it changed; what it has no function for, it is made to do.
    fn ask(rival: &mut OwnedRival, call: &Call<Request>, change: Option<Change>) -> Option<Change> {
        let done = |is: bool| if is { call.change(Ok(None)) } else { None };
        let given = |addr: Option<usize>| addr.and_then(|addr| call.change(Ok(Some(addr))));
        match call.request {
            Request::Alloc { client } => given(rival.alloc(BASE, client)),
            Request::Run { client, size, align_log2 } => {
                given(rival.alloc_contiguous(BASE, client, size, align_log2))
            }
            Request::Dealloc { client, addr } => done(rival.dealloc(BASE, client, addr)),
            Request::DeallocRun { client, addr, count } => {
                done(rival.dealloc_contiguous(BASE, client, addr, count))
            }
            Request::ReleaseAll { client } => done(rival.release_all(BASE, client)),
            Request::Insert { from, to } if change.is_some() => done(rival.tree.insert(from, to)),
            Request::Remove { from, to } if change.is_some() => done(rival.tree.remove(from, to)),
            _ => None,
        }
    }

    #[test]
    fn answers_as_the_model() {
        for depth in 1..=3 {
            let mut rng = Rng::new(u64::from(depth));
            let mut rival = OwnedRival::new(depth);
            let all = rival.owners.len();
            let mut model = Model { frames: vec![State::Reserved; all], contents: None };
            let sizes = Sizes { tree: rival.tree.words.len(), owners: all, words: 0 };
            for _ in 0..20_000 {
                let request = random::request(&mut rng, &model, BASE);
                if matches!(request, Request::Init { .. } | Request::Check) {
                    continue;
                }
                let call = Call { request, base: BASE, sizes };
                let change = call.change(model.answer(&call));
                assert_eq!(ask(&mut rival, &call, change), change, "{request:?}");
                if let Some(change) = change {
                    model.apply(change);
                }
                let free: Vec<bool> = model.frames.iter().map(|&state| state == State::Free).collect();
                assert_eq!(tree::free_frames(&rival.tree.words), free, "{request:?}");
                for (&state, &owner) in model.frames.iter().zip(&rival.owners) {
                    assert_eq!(owner, if let State::Owned(client) = state { client } else { NOBODY });
                }
            }
            assert!(rival.check(BASE));
            let owned = model.frames.iter().filter(|&&state| state == State::Owned(0)).count();
            assert_eq!(rival.owned_count(0), owned);
        }
    }
}
