"""The entries of a refined palette, by the rule of docs/FORMAT.md.

A bin is a pair of a corner and its sums: the number of pixels and the sums of their channels.
"""
from collections import Counter, defaultdict

# The greatest number of colors of which each is a bin of its own.
FEW = 4096


def distance(one, other):
    return sum((a - b) ** 2 for a, b in zip(one, other))


def nearest(colors, color):
    """The index of the nearest entry, the first of equals."""
    return min(range(len(colors)), key=lambda it: (distance(colors[it], color), it))


def grid_color(color):
    """The color that a register shows for a color: its percentages, rounded, as bytes."""
    return tuple(((it * 100 + 127) // 255 * 255 + 50) // 100 for it in color)


def total(bins):
    """The sums of bins."""
    return tuple(map(sum, zip(*(sums for _, sums in bins))))


def mean(bins):
    """The color that a register shows for the mean of bins."""
    count, *sums = total(bins)
    return tuple(((200 * it + 255 * count) // (510 * count) * 255 + 50) // 100 for it in sums)


def parts(box, channel, value):
    """The bins of a box up to a value of a channel, and those above it."""
    above = [it[0][channel] > value for it in box]
    return [[it for it, test in zip(box, above) if test == side] for side in (False, True)]


def gain(box, channel, value):
    """How much the summed error falls if both parts of a box have an entry. Green counts twice."""
    (count, *low), (others, *high) = map(total, parts(box, channel, value))
    red, green, blue = ((256 * a // count - 256 * b // others) ** 2 for a, b in zip(low, high))
    return (red + 2 * green + blue) * (16 * count * others // (count + others)) // 65536


def best_cut(box):
    """The greatest gain of a cut of a box, the channel and the value."""
    best = (0, 0, 0)
    for channel in (2, 1, 0):
        for value in sorted({corner[channel] for corner, _ in box})[:-1]:
            best = max(best, (gain(box, channel, value), channel, value), key=lambda it: it[0])
    return best


def moved(bins, entries):
    """The entries after a round of Lloyd's algorithm."""
    own = defaultdict(list)
    for corner, (count, *sums) in bins:
        own[nearest(entries, [it // count for it in sums])].append((corner, (count, *sums)))
    return [mean(own[at]) if at in own else entry for at, entry in enumerate(entries)]


def refined_entries(pixels, most):
    """The entries of the refined palette of RGBA pixels, at most `most`."""
    counts = Counter(it[:3] for it in pixels if it[3] >= 128)
    if len(counts) <= most:
        return [grid_color(it) for it in sorted(counts)]
    step, bins = 1 if len(counts) <= FEW else 4, defaultdict(list)
    for color, count in counts.items():
        sums = (count, *(count * it for it in color))
        bins[tuple(it // step for it in color)].append((None, sums))
    bins = [(corner, total(it)) for corner, it in bins.items()]
    boxes = [(best_cut(bins), bins)]
    while True:
        at = max(range(len(boxes)), key=lambda it: (boxes[it][0][0], -it))
        (most_gain, *cut), box = boxes[at]
        if most_gain == 0 or len(boxes) == most - most // 16:
            break
        boxes[at], other = ((best_cut(it), it) for it in parts(box, *cut))
        boxes.append(other)
    entries = [mean(box) for _, box in boxes]
    if most_gain:
        twice = moved(bins, moved(bins, entries))
        errors = (
            sum(count * distance(it[nearest(it, color)], color) for color, count in counts.items())
            for it in (entries, twice)
        )
        entries = twice if next(errors) > next(errors) else entries
    while len(entries) < most:
        gaps = {it: distance(entries[nearest(entries, it)], it) for it in sorted(counts)}
        farthest = max(gaps, key=gaps.get)
        if gaps[farthest] <= 6:
            break
        entries.append(grid_color(farthest))
    return entries
