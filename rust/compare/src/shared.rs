//! The shared allocator, whose frames clients own: the proved functions, without and with contents,
//! against a plain model of it.
pub mod columns;
pub mod damage;
pub mod memory;
pub mod model;
pub mod random;
pub mod reading;
pub mod request;
pub mod rival;
pub mod rows;
pub mod sequences;
pub mod sizes;
pub mod special;
pub mod timing;
pub mod trial;
