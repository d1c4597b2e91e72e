//! The proved functions beside others: `ours` calls the proved archive, `upstream` the stripped original,
//! `model` is a plain array of booleans, and `rival` the same tree written in Rust for speed; `shared` is
//! the same for the shared allocator, whose frames have owners and contents. `config_plain` is a
//! plain checker of configurations, and `config_cases` compares ours with it. `machines` is the same for
//! machines, their regions and their frames, and for calls in bytes.
//!
//! The programs are `compare` (every answer and every frame, and the findings), `sample` (a list of
//! upstream's answers for a Rattle program to replay), `bench` (speed of the bitmap), `config_speed` (of a check) and
//! `machine_speed` (of machines' requests and calls).
pub mod columns;
pub mod config_cases;
pub mod config_plain;
pub mod damage;
pub mod findings;
pub mod lent;
pub mod machines;
pub mod model;
pub mod ours;
pub mod random;
pub mod report;
pub mod request;
pub mod rival;
pub mod rng;
pub mod sequences;
pub mod shared;
pub mod stack;
pub mod states;
pub mod timing;
pub mod tree;
pub mod trial;
pub mod upstream;
pub mod work;
