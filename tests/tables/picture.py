"""Prints what `picture` must print of lines without `svg`: a dictionary has the word of each key."""
import sys

WIDTH = 50
word_of = {}
for line in sys.stdin:
    line = line.split("#")[0].strip()
    if line:
        start, end, word = line.split(" ")
        word_of.update((key, word) for key in range(int(start), int(end) + 1))

first, last = min(word_of), max(word_of)
runs = []
for key in range(first, last + 1):
    if runs and word_of.get(key) == runs[-1][2]:
        runs[-1][1] = key
    else:
        runs.append([key, key, word_of.get(key)])
for start, end, word in runs:
    left, right = ((key - first) * WIDTH // (last - first + 1) for key in (start, end + 1))
    right = max(right, left + 1)
    mark = "." if word is None else "#"
    print("".join(mark if left <= place < right else " " for place in range(WIDTH)), f"{start}..={end} {word or '-'}")
