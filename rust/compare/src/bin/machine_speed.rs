//! Times the requests and calls of machines, ours beside a rival in Rust over the same memories, and prints a
//! table. The figures mean something only on a machine that does nothing else.
use compare::machines::timing;

fn main() {
    timing::run();
}
