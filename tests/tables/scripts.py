"""Prints what `scripts` must print: a dictionary has the script of each character."""
import sys

script_of, words = {}, []
for line in sys.stdin:
    line = line.rstrip("\n")
    if line.startswith("? "):
        words.append(line[2:])
    elif line.split("#")[0].strip():
        points, script = (part.strip() for part in line.split("#")[0].split(";"))
        ends = [int(end, 16) for end in points.split("..")]
        for point in range(ends[0], ends[-1] + 1):
            if not 0xD800 <= point <= 0xDFFF:
                script_of[point] = script

points = [*range(0xD800), *range(0xE000, 0x110000)]
runs = [script_of.get(points[0])]
for point in points[1:]:
    if script_of.get(point) != runs[-1]:
        runs.append(script_of.get(point))
gaps = runs.count(None)
print(f"{len(script_of)} characters, {len(runs) - gaps} entries, {gaps} gaps")
scripts = list(script_of.values())
for script in sorted(set(scripts)):
    print(script, scripts.count(script))
for character in "".join(words):
    print(character, script_of.get(ord(character), "Unknown"))
