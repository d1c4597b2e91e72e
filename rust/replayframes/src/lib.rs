//! Which page frames of a server belong to which virtual machine, for hypervisors that run machines of companies
//! which don't trust each other. This is the safe face of a proved library: every decision is made in its archive,
//! whose functions are proved to meet their contracts for any words and any arguments. docs/TRUST.md says what is
//! believed and not proved.
//!
//! A [`Monitor`] is started from the bytes of a configuration, in memories that the caller lends, and asked by
//! machines. It allocates nothing itself.
//!
//! ```
//! use replayframes::config::{Config, Machine, Pool};
//! use replayframes::{to_lend, Call, Kind, Memories, Monitor, Refusal, Region, Request, Spare, State};
//!
//! // Two machines, each with four pages of its own, and sixteen frames to be allocated.
//! const REPLAY: u64 = 1;
//! const GRAPHICS: u64 = 2;
//! let memory = |host| Region { guest: 0, host, pages: 4, kind: Kind::Ordinary };
//! let machines = [
//!     Machine { number: 1, regions: &[memory(0x10000)] },
//!     Machine { number: 2, regions: &[memory(0x20000)] },
//! ];
//! let config = Config { machines: &machines, pool: Pool { host: 0x100000, pages: 16 } };
//! let mut bytes = vec![0; config.bytes_needed()];
//! config.encode(&mut bytes).unwrap();
//!
//! // What is lent may hold anything. The frames' own words are those of the pool's pages.
//! let sizes = to_lend(2, 1, 16).unwrap();
//! let (mut table, mut zones) = (vec![0; sizes.table], vec![0; sizes.zones]);
//! let (mut tree, mut owners) = (vec![0; sizes.tree], vec![0; sizes.owners]);
//! let mut words = vec![0; sizes.words];
//! let memories = Memories {
//!     table: &mut table,
//!     zones: &mut zones,
//!     tree: &mut tree,
//!     owners: &mut owners,
//!     words: &mut words,
//! };
//! let mut monitor = Monitor::start(&bytes, memories).unwrap();
//!
//! // A machine is given what the configuration gives it, and frames that nobody has.
//! monitor.add_zone(REPLAY).unwrap();
//! monitor.insert_region(REPLAY, memory(0x10000)).unwrap();
//! let frame = monitor.alloc(REPLAY).unwrap();
//! assert_eq!(frame, 0x100000);
//!
//! // Another machine's memory and frames are refused.
//! monitor.add_zone(GRAPHICS).unwrap();
//! assert_eq!(monitor.insert_region(GRAPHICS, memory(0x10000)), Err(Refusal::NotGiven));
//! let refusal = monitor.dealloc(GRAPHICS, frame).unwrap_err();
//! assert_eq!(refusal, Refusal::NotYours);
//! assert!(refusal.to_string().starts_with("The frame is another machine's, or reserved. "));
//!
//! // A list is done whole or not at all: here the second request asks for more than there is.
//! let list = [Request::Alloc, Request::AllocContiguous { size: 16, align_log2: 0 }];
//! let (mut call, mut answers) = ([0; 67], [0; 4]);
//! let call = Call::List(&list).encode(&mut call).unwrap();
//! let (mut zones, mut tree, mut owners) = (vec![0; sizes.zones], vec![0; sizes.tree], vec![0; sizes.owners]);
//! let mut spare = Spare { zones: &mut zones, tree: &mut tree, owners: &mut owners };
//! let stopped = monitor.serve(&mut spare, GRAPHICS, call, &mut answers).unwrap_err();
//! assert_eq!((stopped.refusal, stopped.member), (Refusal::NoRoom, Some(1)));
//! assert_eq!(monitor.frames_of(GRAPHICS).collect::<Result<Vec<_>, _>>(), Ok(vec![]));
//!
//! // Who has what.
//! let first = monitor.frames().next().unwrap().unwrap();
//! assert_eq!((first.address, first.state), (0x100000, State::Owned(REPLAY)));
//! assert!(monitor.machines().all(|machine| machine.unwrap().is_there));
//! ```
#![no_std]
#![deny(missing_docs)]

#[cfg(not(target_pointer_width = "64"))]
compile_error!("the proved functions count in 64 bits: build for a target with addresses of 64 bits");

pub mod config;
pub mod ffi;
mod looks;
mod memories;
mod monitor;
mod refusal;
mod reply;
mod request;

pub use memories::{to_lend, Memories, Sizes, Spare, FRAME_BYTES, FRAME_WORDS, TABLE_WORDS};
pub use monitor::{Frame, Machine, Monitor, State};
pub use refusal::Refusal;
pub use reply::{answers_for, replies_for, Answers, CallRefusal, Replies, Reply, RunRefusal};
pub use request::{Call, Kind, Region, Request, ShortBuffer, Which, HEADER_BYTES, REQUEST_BYTES};
