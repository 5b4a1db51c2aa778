"""Prints what `routes` must print: the owner at each address where a block or a range begins or ends, and the fewest prefixes."""
import sys
from collections.abc import Iterator
from ipaddress import IPv4Address, IPv4Network, IPv6Address, IPv6Network, ip_address, ip_network, summarize_address_range

Address = IPv4Address | IPv6Address
Network = IPv4Network | IPv6Network
families: list[tuple[int, int, type[IPv4Address] | type[IPv6Address]]] = [(4, 32, IPv4Address), (6, 128, IPv6Address)]
blocks: list[Network] = []
spans: dict[int, list[tuple[int, int, str]]] = {4: [], 6: []}  # by version: ranges and prefixes of length 0, the later first
owners: dict[tuple[int, int, int], str] = {}  # by version, length and the bits that are shared
asked: list[str] = []
for line in sys.stdin:
    line = line.split("#")[0].strip()
    if line.startswith("? "):
        asked.append(line[2:])
    elif line and " " not in line:
        first, last, owner = line.split(",")
        spans[ip_address(first).version].insert(0, (int(ip_address(first)), int(ip_address(last)), owner))
    elif line:
        text_of_block, owner = line.split(" ", 1)
        block = ip_network(text_of_block)
        if block.prefixlen == 0:
            spans[block.version].insert(0, (int(block[0]), int(block[-1]), owner))
        else:
            blocks.append(block)
            owners[block.version, block.prefixlen, int(block[0]) >> block.max_prefixlen - block.prefixlen] = owner
lengths = sorted({block.prefixlen for block in blocks}, reverse=True)


def owner_of(address: Address) -> str | None:
    """Of the blocks that hold the address, the longest prefix, and a prefix before a range; of equal ones the later."""
    number, bits = int(address), address.max_prefixlen
    holding = ((address.version, length, number >> bits - length) for length in lengths if length <= bits)
    by_prefix = next((owners[block] for block in holding if block in owners), None)
    return by_prefix or next((owner for first, last, owner in spans[address.version] if first <= number <= last), None)


def ranges() -> Iterator[tuple[Address, Address, str]]:
    """The greatest ranges of addresses with one owner."""
    for version, bits, of in families:
        mine = [(int(block[0]), int(block[-1])) for block in blocks if block.version == version]
        mine += [(first, last) for first, last, _ in spans[version]]
        starts = {0} | {first for first, _ in mine} | {last + 1 for _, last in mine}
        found: list[tuple[int, int, str | None]] = []
        for start, after in zip(sorted(starts - {1 << bits}), [*sorted(starts - {1 << bits})[1:], 1 << bits]):
            owner = owner_of(of(start))
            if found and found[-1][2] == owner:
                start = found.pop()[0]
            found.append((start, after - 1, owner))
        yield from ((of(start), of(end), owner) for start, end, owner in found if owner is not None)


def text(address: Address) -> str:
    """The address as RFC 5952 has it: of an address of IPv4 in one of IPv6 the last part is dotted.

    >>> text(ip_address("::ffff:a00:1"))
    '::ffff:10.0.0.1'
    """
    mapped = address.ipv4_mapped if isinstance(address, IPv6Address) else None
    return str(address) if mapped is None else f"::ffff:{mapped}"


for start, end, owner in ranges():
    print(text(start), text(end), owner)
for question in asked:
    if question == "prefixes":
        for start, end, owner in ranges():
            for prefix in summarize_address_range(start, end):
                print(f"{text(prefix[0])}/{prefix.prefixlen} {owner}")
    else:
        address = ip_address(question)
        print(text(address), owner_of(address) or "-")
