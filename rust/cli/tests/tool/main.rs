//! Runs the program as people do: each command, its answers, its files and its exit status.
mod check;
mod common;
mod docs;
mod pictures;
mod round_trips;
mod scripts;
mod usage;
