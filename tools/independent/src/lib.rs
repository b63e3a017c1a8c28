//! The queue lock on the memory board, a second time and in plain Rust.
//!
//! Written from the pages under `docs/` and from nothing else, so that it can be held against the proved
//! implementation: where the two print different bytes, one of them (or a page) is wrong.
//!
//! | module | page |
//! |---|---|
//! | `memory`, `deferred`, `in_place` | docs/memory-rules.md |
//! | `lock` | docs/steps.md |
//! | `door` | docs/door-rules.md |
//! | `schedule`, `output` | docs/schedules.md |
//! | `promise`, `watched`, `explore` | docs/promise.md, as checks on a running board |

pub mod deferred;
pub mod door;
pub mod explore;
pub mod in_place;
pub mod lock;
pub mod memory;
pub mod output;
pub mod promise;
pub mod random;
pub mod schedule;
pub mod watched;

#[cfg(test)]
mod tests;
