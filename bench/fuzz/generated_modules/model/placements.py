"""Offsets and spans of structs by chance: most often those that a struct has by itself, with gaps, and now and then others."""

from layouts import rounded

# what a member without a layout takes, so that others stand after it
PLAIN = (4, 4)


def some_placement(r, layouts, ty):
    """The offsets of a struct's members, and its span."""
    gaps, faults = r.choice([0, 0.2, 0.2, 0.7]), 0.3 if r.random() < 0.1 else 0
    offsets, end, greatest = [], 0, 1
    for number, (_, member) in enumerate(ty[1]):
        alignment, size = layouts.of(member) or PLAIN
        offset = rounded(end, alignment)
        if number and r.random() < gaps:
            offset += alignment * r.choice([1, 1, 2, 3, 16])
        if r.random() < faults:
            offset = misplaced(r, offset, end, alignment)
        # past the offsets that there are nothing stands, but now and then a number is no offset
        offset = offset if offset < 2**32 or r.random() < 0.05 else r.choice([2**32 - alignment, 2**31])
        offsets.append(offset)
        end, greatest = offset + (PLAIN[1] if size is None else size), max(greatest, alignment)
    return offsets, some_span(r, end, greatest)


def misplaced(r, offset, end, alignment):
    """An offset that is off a member's alignment, or in what stands before it, or one where any may stand."""
    return r.choice([
        offset + 1, offset + alignment // 2, offset + 2, max(offset - alignment, 0), max(end - 1, 0), end // 2, 0, alignment])


def some_span(r, end, greatest):
    what, whole = r.random(), rounded(end, greatest)
    if what < 0.25:
        whole += greatest * r.choice([1, 1, 2, 3, 16])
    elif what < 0.35:
        whole = r.choice([0, 1, end, end + 1, max(whole - greatest, 0), max(end - 1, 0), whole + 1, whole + 2, 2**32 - 1])
    return whole if whole < 2**32 or r.random() < 0.05 else 2**32 - greatest
