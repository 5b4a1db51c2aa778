//! A map in a `LazyLock`. This test has a file of its own, because it needs Rust 1.80.
#![allow(clippy::incompatible_msrv)]

use range_map::RangeMap;
use std::sync::{LazyLock, Mutex};
use std::thread;

static TABLE: LazyLock<RangeMap> =
    LazyLock::new(|| RangeMap::from_iter([(0..=9, 1), (20..=29, 2)]));
static CHANGED: LazyLock<Mutex<RangeMap>> = LazyLock::new(|| Mutex::new(TABLE.clone()));

#[test]
fn the_first_thread_makes_the_map() {
    thread::scope(|scope| {
        for thread in 0..4_u64 {
            scope.spawn(move || {
                for key in 0..30 {
                    let wanted = match key {
                        0..=9 => Some(1),
                        20..=29 => Some(2),
                        _ => None,
                    };
                    assert_eq!(TABLE.get(key), wanted);
                }
                let key = 100 * thread as i64;
                let changed = CHANGED.lock().unwrap().ranges_insert(key..=key + 9, thread);
                assert_eq!(changed, Ok(thread != 0));
            });
        }
    });
    let wanted = [
        (0..=9, 0),
        (20..=29, 2),
        (100..=109, 1),
        (200..=209, 2),
        (300..=309, 3),
    ];
    assert!(CHANGED.lock().unwrap().range_values().eq(wanted));
    assert_eq!(TABLE.get(0), Some(1));
}
