#!/usr/bin/env python3
"""A layout engine to start from: a sheet as text on standard input, a stored sheet on standard output.

It ties each site, by rising x, to the nearest slot that no other colour has: quick, often unlawful, seldom the best.
"""
import sys

width = charge = 0
slots, sites = [], []  # heights; (x, y, colour) in sheet order
colour = -1
lines = [line.split("#")[0].rstrip() for line in sys.stdin]
for words in map(str.split, lines):
    if words[:1] == ["head"]:
        width = int(words[words.index("width") + 1])
    elif words[:1] == ["charge"]:
        charge = int(words[1])
    elif words[:1] == ["slot"]:
        slots.append(int(words[1]))
    elif words[:1] == ["colour"]:
        colour += 1
    elif words[:1] == ["site"]:
        sites.append((int(words[1]), int(words[2]), colour))

tie = [0] * len(sites)
left_end, colour_of = {}, {}  # by slot
length = 0
for x, y, colour, site in sorted((*site, number) for number, site in enumerate(sites)):
    free = [slot for slot in range(len(slots)) if colour_of.get(slot, colour) == colour]
    if not free:
        print("refused 10")
        sys.exit()
    tie[site] = min(free, key=lambda slot: abs(slots[slot] - y))
    drop = abs(slots[tie[site]] - y)
    length += drop + charge if drop else 0
    left_end.setdefault(tie[site], x)
    colour_of[tie[site]] = colour
length += sum(width - x for x in left_end.values())

print("\n".join(line for line in lines if line))
print(f"layout labels {len(left_end)} length {length}")
for slot in tie:
    print(f"tie {slot}")
