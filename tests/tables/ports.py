"""Prints what `ports` must print: each port on its own."""
import sys

names, counts = {"tcp": {}, "udp": {}}, []
for line in sys.stdin:
    if line.startswith("? "):
        counts.append(int(line[2:]))
        continue
    words = line.split("#")[0].split()
    if words:
        port, protocol = words[1].split("/")
        names.setdefault(protocol, {})[int(port)] = words[0]

tcp, udp = names["tcp"], names["udp"]
both = [port for port in sorted(tcp) if port in udp]
others = [port for port in both if tcp[port] != udp[port]]
alone = len(tcp) - len(both), len(udp) - len(both)
print(f"TCP alone: {alone[0]} ports\nUDP alone: {alone[1]} ports")
print(f"same name: {len(both) - len(others)} ports\nother name: {len(others)} ports")
for port in others:
    print(f"{port} TCP {tcp[port]}, UDP {udp[port]}")

free = [port not in tcp and port not in udp for port in range(65536)]
ranges = sum(is_free and (port == 0 or not free[port - 1]) for port, is_free in enumerate(free))
print(f"{sum(free)} ports are free, in {ranges} ranges")
for count in counts:
    start = next((p for p in range(1024, 65537 - count) if all(free[p : p + count])), None)
    if start is None:
        print(f"{count} free ports: none")
    else:
        end = start
        while end < 65535 and free[end + 1]:
            end += 1
        print(f"{count} free ports: {start}..={end}")
