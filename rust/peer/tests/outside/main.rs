//! Tests from outside: what a caller of the node sees, and no more.

mod calls;
mod exchanges;
mod flow_control;
mod heartbeats;
mod pair;
mod random_calls;
mod replaying;
mod soak;
mod spare_route;
mod traps;
mod world;
