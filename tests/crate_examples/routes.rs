//! A table of routes, as a map of addresses.
use crate::answers::{Answer, gives, judge};
use demo_keys::{Ipv4, prefix_range};
use range_map_blaze::RangeMapBlaze;
use std::alloc::{AllocError, Global};

/// The next hop and the interface of a route.
type Hop = (&'static str, &'static str);

/// An address.
fn address(bytes: [u8; 4]) -> Ipv4 {
    Ipv4(u32::from_be_bytes(bytes))
}

/// Five routes, the longest prefix last.
const ROUTES: [([u8; 4], u32, Hop); 5] = [
    ([0, 0, 0, 0], 0, ("152.10.0.0", "eth0")),
    ([10, 0, 0, 0], 8, ("10.3.4.2", "eth1")),
    ([10, 0, 1, 12], 30, ("10.1.1.0", "eth2")),
    ([10, 0, 1, 8], 30, ("10.1.1.0", "eth2")),
    ([10, 0, 1, 7], 32, ("10.1.1.0", "eth2")),
];

/// A map of these.
fn routes(alloc: Global) -> Result<RangeMapBlaze<Ipv4, Hop>, AllocError> {
    let mut map = RangeMapBlaze::new(alloc);
    for (start, bits, hop) in ROUTES {
        if let Some(range) = prefix_range(address(start), bits) {
            let _ = map.ranges_insert(range, hop)?;
        }
    }
    Ok(map)
}

fn ranges_of_routes(alloc: Global) -> Answer {
    let (wide, middle, narrow) = (
        ("152.10.0.0", "eth0"),
        ("10.3.4.2", "eth1"),
        ("10.1.1.0", "eth2"),
    );
    let expected = [
        (address([0, 0, 0, 0])..=address([9, 255, 255, 255]), &wide),
        (address([10, 0, 0, 0])..=address([10, 0, 1, 6]), &middle),
        (address([10, 0, 1, 7])..=address([10, 0, 1, 15]), &narrow),
        (
            address([10, 0, 1, 16])..=address([10, 255, 255, 255]),
            &middle,
        ),
        (
            address([11, 0, 0, 0])..=address([255, 255, 255, 255]),
            &wide,
        ),
    ];
    Ok(gives(routes(alloc)?.range_values(), &expected))
}

fn route_of_an_address(alloc: Global) -> Answer {
    Ok(routes(alloc)?.get(address([10, 0, 1, 6])) == Some(&("10.3.4.2", "eth1")))
}

/// Judges the examples of this file.
pub fn all(rt: &HostRuntime, alloc: Global) -> bool {
    judge(
        rt,
        "routes",
        &[
            ("ranges_of_routes", ranges_of_routes(alloc)),
            ("route_of_an_address", route_of_an_address(alloc)),
        ],
    )
}
