"""Prints the result of each line of docs/TASKS.md, in order, from dictionaries with the value of each key. Values are in printed form."""
MIN, MAX = -(2**31), 2**31 - 1
# All keys from -9 to 99, and both ends of the key type. Each other key has the value of the keys on both sides of it.
KEYS = [MIN, *range(-9, 100), MAX]


def keys(start, end=MAX):
    return [key for key in KEYS if start <= key <= end]


def runs(content):
    """The greatest ranges of keys with one value, or with none: (first key, last key, value or None)."""
    assert content.get(MIN) == content.get(-9) and content.get(99) == content.get(MAX)
    found = []
    for key in KEYS:
        if found and found[-1][2] == content.get(key):
            found[-1][1] = key
        else:
            found.append([key, key, content.get(key)])
    return [tuple(run) for run in found]


def entries(content):
    return [run for run in runs(content) if run[2] is not None]


def overlapping(content, start, end=MAX):
    return [run for run in entries(content) if run[0] <= end and start <= run[1]]


def gaps(content, start, end=MAX):
    return entries({key: "free" for key in keys(start, end) if key not in content})


def length(run):
    return run[1] - run[0] + 1


def painted(content, start, end, value):
    return {**content, **dict.fromkeys(keys(start, end), value)}


def cut(content, start, end=MAX):
    return {key: content[key] for key in keys(start, end) if key in content}


def without(content, *others):
    return {key: value for key, value in content.items() if not any(key in other for other in others)}


# ---- How results print
def some(text):
    return "None" if text is None else f"Some({text})"


def flag(value):
    return str(value).lower()


def pair(*parts):
    return f"({', '.join(map(str, parts))})"


def ends(run):
    return f"{run[0]}..={run[1]}"


def entry(run):
    return pair(ends(run), run[2])


def listed(content):
    return ", ".join(map(entry, entries(content)))


# ---- The values that each line starts from
letters = painted(painted(painted({}, 10, 14, "'a'"), 15, 15, "'b'"), 30, 39, "'c'")
other = painted({}, 12, 15, "'b'")
capitals = painted({}, 10, 11, "'A'")
above = painted({}, 22, 24, "'d'")
ours = painted({}, 0, 9, 1)
theirs = painted({}, 5, 14, 10)
some_keys = [*keys(0, 11), *keys(20, 21)]
width = length((12, 15))


def changes():
    """Maps that are made and changed."""
    yield listed(painted(painted({}, 0, 9, "'a'"), 5, 6, "'b'"))
    yield listed({3: "'a'", 1: "'a'", 2: "'a'"})
    yield listed(painted(letters, 10, 19, "'a'"))
    yield listed({**painted({}, 18, 24, "'d'"), **letters})
    yield some(letters.get(12))
    yield listed(painted(painted(letters, 0, 4, "'f'"), 4, 5, "'g'"))
    yield listed({**letters, **other})
    yield listed({**letters, **{key: letters.get(key, "'-'").upper() for key in keys(12, 27)}})
    yield listed({**ours, **{key: ours.get(key, 0) + 1 for key in keys(5, 14)}})
    yield listed(without(letters, keys(14, 16)))
    yield listed(cut(letters, 12, 21))
    yield some(letters.get(12))
    yield some(pair(max(letters), letters[max(letters)]))
    kept = [run for run in entries(letters) if run[2] != "'a'" and run[0] < 20]
    yield ", ".join(map(entry, kept))
    yield listed(cut(letters, 20))
    yield listed({key + 5: value for key, value in letters.items()})


def lookups():
    """What a map has at a key or within a range."""
    yield some(letters.get(15))
    yield some(entry(overlapping(letters, 12, 12)[0]))
    run = next(run for run in runs(letters) if run[0] <= 26 <= run[1])
    yield pair(ends(run), some(run[2]))
    below = [run for run in entries(letters) if run[0] <= 27][-1]
    yield pair(some(entry(below)), some(entry(overlapping(letters, 27)[0])))
    yield pair(*(some(pair(key, letters[key])) for key in (min(letters), max(letters))))
    yield some(str(sorted(letters)[6]))
    yield "; ".join(map(entry, overlapping(letters, 12, 15)))
    yield "; ".join(map(entry, entries(cut(letters, 12, 21))))
    yield str(len(cut(letters, 12, 21)))
    yield "; ".join(map(ends, gaps(letters, 0, 50)))
    yield some(ends(gaps(letters, 0, 50)[-1]))
    yield flag(not cut(letters, 25, 29))
    yield flag(len(cut(letters, 10, 24)) == len(keys(10, 24)))
    yield flag(not letters.keys() & other.keys())
    yield flag(letters.keys() >= other.keys())
    yield pair(flag(letters.keys() >= set(some_keys)), flag(not letters.keys() & set(some_keys)))
    yield some(str(next(key for key in keys(10) if key not in letters)))
    yield some(entry(next(run for run in entries(letters) if 26 <= run[1])))
    yield some(next(ends(run) for run in gaps(letters, 0) if 8 <= length(run)))
    yield pair(len(letters), len(entries(letters)))
    yield str(width)
    yield str(width)
    yield some(entry(max(entries(letters), key=length)))
    yield some(ends(max(gaps(letters, 0, 50), key=length)))


def walks():
    """Walks over all entries."""
    yield "; ".join(map(entry, entries(letters)))
    yield f"[{listed(letters)}]"
    yield some(entry(entries(letters)[-1]))
    yield "; ".join(map(ends, entries(dict.fromkeys(letters, "there"))))
    yield ", ".join(pair(ends(run), some(run[2])) for run in runs(letters))
    yield "; ".join(pair(key, letters[key]) for key in sorted(letters)[:2])
    yield "; ".join(f"Ok({pair(key, above[key])})" for key in keys(22, 23))


def combinations():
    """Two or more maps, or a map and a set."""
    yield listed({**letters, **other})
    yield listed({key: value for key, value in other.items() if key in letters})
    yield listed(without(letters, other))
    yield ", ".join(map(ends, gaps(letters, MIN)))
    yield listed({key: letters[key] for key in some_keys if key in letters})
    yield listed({key: value.upper() for key, value in letters.items()})
    yield listed({key: f'"{value[1]}!"' for key, value in letters.items()})
    shared = [key for key in letters if key in other]
    yield listed({key: pair(letters[key], other[key]) for key in shared})
    yield listed({key: f'"{letters[key][1]}{other[key][1]}"' for key in shared})
    either = sorted({*letters, *other})
    yield listed({key: flag(letters.get(key) != other.get(key)) for key in either})
    pieces = entries({key: f"{some(letters.get(key))}, {some(other.get(key))}" for key in either})
    yield "; ".join(map(entry, pieces))
    yield listed({key: ours.get(key, 0) + theirs.get(key, 0) for key in {**ours, **theirs}})
    yield listed({**letters, **other, **capitals})
    yield flag(letters == dict(letters))


for part in (changes, lookups, walks, combinations):
    print(*part(), sep="\n")
