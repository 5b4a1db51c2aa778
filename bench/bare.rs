//! Nodes that store the value itself.

/// The type that a node stores for a value.
pub type Held<V> = V;

pub fn hold<V>(value: V) -> Held<V> {
    value
}

pub fn held<V>(value: &Held<V>) -> &V {
    value
}

pub fn give<V>(value: Held<V>) -> V {
    value
}
