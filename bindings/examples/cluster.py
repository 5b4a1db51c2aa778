"""Looks up many keys, and builds one map, on a Dask cluster of two processes: `cluster.py [KEYS]`, 10,000,000 keys by default.

It needs Dask (Debian: python3-dask, python3-distributed) and NumPy.
"""
# mypy: allow-untyped-calls
import sys
from collections import Counter
from functools import reduce
from operator import or_
from pathlib import Path

import numpy
from dask.distributed import Client, LocalCluster

module = str(Path(__file__).resolve().parent.parent / "python")
sys.path.append(module)
from range_map import FrozenRangeMap, RangeMap

SPACE = 2**32
OWNERS = [f"owner {number}" for number in range(20)]
Paint = tuple[int, int, str]


def paints(count: int, seed: int) -> list[Paint]:
    """Random ranges with an owner each."""
    choose = numpy.random.default_rng(seed)
    starts, lengths, owners = choose.integers(SPACE, size=count), choose.integers(1, 2**20, size=count), choose.integers(20, size=count)
    return [(int(start), int(start + length), OWNERS[owner]) for start, length, owner in zip(starts, lengths, owners)]


def count_owners(table: FrozenRangeMap[str], count: int, seed: int) -> Counter[str | None]:
    """How many random keys of one partition each owner has."""
    keys = numpy.random.default_rng(seed).integers(SPACE, size=count)
    return Counter(table.get_many(keys))


def painted(shard: RangeMap[str], ranges: list[Paint]) -> RangeMap[str]:
    """A shard of a map after the ranges that fall into it, in order."""
    shard.update(ranges)
    return shard


def main() -> None:
    count = int(sys.argv[1]) if len(sys.argv) > 1 else 10_000_000
    first, later = paints(2_000, seed=1), paints(5_000, seed=2)
    with LocalCluster(n_workers=2, threads_per_worker=1, dashboard_address=None) as cluster, Client(cluster) as client:
        client.run(sys.path.append, module)

        # One table for all partitions: it is sent to each process once.
        table = client.scatter(FrozenRangeMap(first), broadcast=True)
        sizes = [count // 20 + (part < count % 20) for part in range(20)]
        counts = [client.submit(count_owners, table, size, seed) for seed, size in enumerate(sizes)]
        total: Counter[str | None] = sum(client.gather(counts), Counter())
        print(f"{count} keys: {total[None]} without an owner; most, {max(total[owner] for owner in OWNERS)}, have one owner")
        assert total.total() == count

        # One map, built in shards: no two shards have a key in common, so their union is the map.
        bounds = [SPACE // 8 * number for number in range(1, 8)]
        rest = RangeMap(first)
        shards = [rest.split(bound) for bound in reversed(bounds)][::-1]
        shards.insert(0, rest)
        ends = list(zip([0, *bounds], [*bounds, 2 * SPACE]))
        parts = [[(max(start, lo), min(stop, hi), owner) for start, stop, owner in later if start < hi and lo < stop] for lo, hi in ends]
        built = reduce(or_, client.gather(client.map(painted, shards, parts)))

    alone = RangeMap(first)
    for start, stop, owner in later:
        alone[start:stop] = owner
    print(f"built in {len(shards)} shards: {len(built)} ranges, {built.count()} keys; equal to the map built here: {built == alone}")
    sys.exit(built != alone)


if __name__ == "__main__":
    main()
