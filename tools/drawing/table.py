"""The table of a text's leaves, as `plift-view --summary` writes it."""

from __future__ import annotations

from typing import List, Optional

from .leaves import UNKNOWN, Leaf, Map
from .picture import percent


def counts(map_: Map, leaves: List[Leaf]) -> str:
    """How many of the leaves there are of each kind."""
    return " ".join(f"{kind} {sum(leaf.kind == kind for leaf in leaves)}" for kind in map_.kinds)


def leaf_line(map_: Map, label: str, leaf: Optional[Leaf]) -> str:
    """A leaf, where there is one: its kind, its depth and its rectangle."""
    if leaf is None:
        return f"{label} none"
    intervals = [map_.interval(parameter, span) for parameter, span in enumerate(leaf.spans)]
    ends = [f" {name} {low} {high}" for name, (low, high) in zip(map_.names, intervals)]
    return f"{label} {leaf.kind} depth {leaf.depth}{''.join(ends)}"


def summary_text(map_: Map) -> str:
    """Leaves, shares, the first decided leaf below the fewest and the most splits, and leaves by depth."""
    decided = sorted((leaf for leaf in map_.leaves if leaf.kind != UNKNOWN), key=lambda leaf: leaf.depth)
    deepest = next((leaf for leaf in decided if leaf.depth == decided[-1].depth), None)
    lines = [f"leaves {counts(map_, map_.leaves)}"]
    lines += [f"share {kind} {map_.share(kind)} {percent(map_.share(kind))}" for kind in map_.kinds]
    lines.append(leaf_line(map_, "greatest", decided[0] if decided else None))
    lines.append(leaf_line(map_, "least", deepest))
    for depth in range(map_.depth + 1):
        lines.append(f"depth {depth} {counts(map_, [leaf for leaf in map_.leaves if leaf.depth == depth])}")
    return "".join(f"{line}\n" for line in lines)
