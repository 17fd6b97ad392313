//! Every test again, on images that are tested in each call.
#[path = "any_bytes.rs"]
mod any_bytes;
#[path = "calls.rs"]
mod calls;
#[path = "inventory.rs"]
mod inventory;
#[path = "mend.rs"]
mod mend;
#[path = "paths.rs"]
mod paths;
#[path = "ranges.rs"]
mod ranges;
#[path = "reasons.rs"]
mod reasons;
#[path = "scripts.rs"]
mod scripts;
#[path = "support_call.rs"]
mod support_call;
#[path = "threads.rs"]
mod threads;
