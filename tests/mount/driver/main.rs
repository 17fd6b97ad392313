//! The mount beside the Rust: `driver SEQUENCES CALLS SEED` has the comparison's generator (tests/beside_rust) make its calls on 000, and the same calls on a mounted
//! image, both through `FileSystem` and `INode`; after each call answers, values and stored bytes are compared. It prints the counts, and ends with 1 where there is
//! a difference.
#[allow(dead_code)]
#[path = "../../beside_rust/driver/device.rs"]
mod device;
#[allow(dead_code)]
#[path = "../../beside_rust/driver/gen.rs"]
mod gen;
#[allow(dead_code)]
#[path = "../../beside_rust/driver/script.rs"]
mod script;
#[allow(dead_code)]
#[path = "../../beside_rust/driver/table.rs"]
mod table;
#[allow(dead_code)]
#[path = "../../beside_rust/driver/walk.rs"]
mod walk;
#[allow(dead_code)]
#[path = "../../beside_rust/driver/world.rs"]
mod world;

mod along;
mod besides;
mod counts;
mod image;

use along::Along;
use counts::Counts;

fn main() {
    spin::ALONE.store(true, std::sync::atomic::Ordering::Relaxed);
    std::panic::set_hook(Box::new(|panic| eprintln!("{panic}")));
    let words: Vec<u64> = std::env::args().skip(1).filter_map(|word| word.parse().ok()).collect();
    let [sequences, calls, seed] = words[..] else {
        eprintln!("driver SEQUENCES CALLS SEED");
        std::process::exit(2)
    };
    let mut counts = Counts::default();
    for s in seed..seed + sequences {
        let mut along = Along::new(s, &mut counts);
        let made = gen::sequence(s, calls as usize, Some(&mut along));
        // The Rust's side is left as it is: nothing of it is dropped.
        std::mem::forget(made);
    }
    counts.show(seed, sequences);
    std::process::exit(!counts.differences.is_empty() as i32)
}
