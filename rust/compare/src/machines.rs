//! Machines, their regions and their frames, and calls in bytes, which ask for them: the proved functions
//! against a plain model of them, with an independent look at who reaches which host page.
pub mod any_bytes;
pub mod bytes;
pub mod call_cases;
pub mod call_timing;
pub mod calls;
pub mod configs;
pub mod damage;
pub mod lists;
pub mod memory;
pub mod model;
pub mod monitored;
pub mod purge;
pub mod random;
pub mod reach;
pub mod reading;
pub mod request;
pub mod rival;
pub mod rival_calls;
pub mod runs;
pub mod sets;
pub mod starts;
pub mod subject;
pub mod timing;
pub mod trial;
pub mod truck;
