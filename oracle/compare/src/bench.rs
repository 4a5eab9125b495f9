//! Times of port and original, taken in the same run on the same inputs. Only the calls are timed, for
//! the port its judging of what it is lent included; the best of several rounds counts, by the
//! processor's time.

pub mod boards;
pub mod build;
pub mod checks;
#[cfg(not(feature = "heap"))]
mod clock;
pub mod even;
pub mod hostile;
pub mod links;
pub mod network;
pub mod power;
pub mod table;

#[cfg(feature = "heap")]
mod heap;

use std::time::Duration;

/// Rounds are repeated until so much time has gone by, unless a benchmark says otherwise.
const ENOUGH: Duration = Duration::from_millis(1_500);

/// What a call costs: its time or, in the run that counts it, its heap.
#[derive(Clone, Copy)]
struct Cost {
    time: Duration,
    #[cfg(feature = "heap")]
    heap: usize,
}

/// The least of several rounds, and what the last one left.
type Best<T> = (Cost, T);

#[cfg(not(feature = "heap"))]
fn timed(work: impl FnOnce()) -> Cost {
    let start = clock::now();
    work();
    Cost { time: clock::now() - start }
}

#[cfg(feature = "heap")]
fn timed(work: impl FnOnce()) -> Cost {
    Cost { time: Duration::ZERO, heap: heap::most_bytes(work) }
}

fn best<T>(round: impl FnMut() -> (Cost, T)) -> Best<T> {
    best_within(ENOUGH, round)
}

#[cfg(not(feature = "heap"))]
fn best_within<T>(enough: Duration, mut round: impl FnMut() -> (Cost, T)) -> Best<T> {
    let start = clock::now();
    let (mut least, mut left) = round();
    while clock::now() - start < enough {
        let (cost, again) = round();
        least.time = least.time.min(cost.time);
        left = again;
    }
    (least, left)
}

#[cfg(feature = "heap")]
fn best_within<T>(_: Duration, mut round: impl FnMut() -> (Cost, T)) -> Best<T> {
    round()
}

/// Prints both costs; true if both left the same.
fn compare<T: PartialEq>(what: &str, port: Best<T>, original: Best<T>) -> bool {
    let same = port.1 == original.1;
    let differ = if same { "" } else { ", ANSWERS DIFFER" };
    println!("{what}: {}{differ}", side_by_side(&port.0, &original.0));
    same
}

#[cfg(not(feature = "heap"))]
fn side_by_side(port: &Cost, original: &Cost) -> String {
    let (port, original) = (port.time.as_secs_f64(), original.time.as_secs_f64());
    format!(
        "port {:.3} ms, original {:.3} ms, ratio {:.3}",
        port * 1e3,
        original * 1e3,
        port / original
    )
}

#[cfg(feature = "heap")]
fn side_by_side(port: &Cost, original: &Cost) -> String {
    format!("heap of the port {} bytes, of the original {} bytes", port.heap, original.heap)
}
