#!/usr/bin/env python3
"""How many pixels the program fill_bench lays, by the rules of docs/RULES.md over whole numbers alone."""

SIDE, OUTLINES, CORNERS = 1000, 1000, 64


def following(number):
    return (number * 1664525 + 1013904223) % 2**32


def outline(number):
    points = []
    for _ in range(CORNERS):
        across = following(number)
        number = following(across)
        points.append(((across >> 8) % SIDE, (number >> 8) % SIDE))
    return points, number


def pixels(points):
    """The number of pixels of the fill of an outline that is not flat, in an opaque colour."""
    xs, ys = [x for x, _ in points], [y for _, y in points]
    if max(xs) - min(xs) > max(ys) - min(ys):
        turned = points
    else:
        turned = [(y, x) for x, y in points]
    sides = []
    for k, (m0, s0) in enumerate(turned):
        m1, s1 = turned[(k + 1) % len(turned)]
        sides.append((m0, s0, m1, s1) if m0 <= m1 else (m1, s1, m0, s0))
    low = min(s for _, s in turned)
    high = max(s for _, s in turned)
    count = 0
    for m in range(min(m for m, _ in turned), max(m for m, _ in turned) + 1):
        places = []
        for m0, s0, m1, s1 in sides:
            if m0 <= m < m1:
                over, span = s0 * (m1 - m0) + (s1 - s0) * (m - m0), m1 - m0
                places.append((over // span, -(-over // span)))
        turns = [0] * (high - low + 2)
        covered = [False] * (high - low + 2)
        for floor, ceil in places:
            turns[floor + 1 - low] ^= 1
            if floor == ceil:
                covered[floor - low] = True
        odd = 0
        for cell in range(high - low + 1):
            odd ^= turns[cell]
            if odd:
                covered[cell] = True
            count += covered[cell]
        for floor, ceil in places:
            if floor != ceil:
                count += (not covered[floor - low]) + (not covered[ceil - low])
    return count


number, total = 1, 0
for _ in range(OUTLINES):
    points, number = outline(number)
    total += pixels(points)
print(total)
