//! Runs a work of each file on small maps.
use crate::library_run;

#[test]
fn works_return_checksums(rt: HostRuntime) {
    for work in [0, 5, 15, 17, 24, 53] {
        assert!(rt; library_run(rt.alloc(), work, 40, 4) != 0);
    }
    assert_eq!(rt; library_run(rt.alloc(), 199, 40, 4), 0);
}
