#!/usr/bin/env python3
"""Prints a model that is too long to keep.

    bench/models.py chain500    500 modules in a row behind one source, in one cluster; rates of 1 and 2
    bench/models.py wide        1,024 modules in 60 clusters: a source, and eight or nine branches of one or two modules behind it
"""
import sys


def block(name, ports, attributes, statements):
    parts = [f"tdf {name}", *ports]
    if attributes:
        parts += ["set_attributes", *attributes, "end"]
    return [*parts, "processing", *statements, "end", "end"]


def source(name, *attributes):
    return block(name, ["out y w", "var n w"], attributes, ["y = n", "n = n + 1"])


KEEP = block("keep", ["in x w", "out y w"], [], ["y = x + 1"])
UP = block("up", ["in x w", "out y w"], ["rate y 2"], ["y[0] = x", "y[1] = x + 1"])


def halving(name):
    return block(name, ["in x w", "out y w"], ["rate x 2"], ["y = x[0] + x[1]"])


def instance(name, kind, **ports):
    """An instance behind a signal for what it writes."""
    return [f"signal {ports['y']} w", f"instance {name} {kind}"] + [f"bind {name}.{port} {signal}" for port, signal in ports.items()]


def chain(size):
    """Which block comes next is drawn: one that doubles the rate is followed by one that halves it."""
    rows = [*source("src", "timestep 1us"), *KEEP, *UP, *halving("down"), "top", *instance("m0", "src", y="s0")]
    drawn, doubled = 1, False
    for k in range(1, size + 1):
        drawn, kind = (75 * drawn + 74) % 65537, "keep"
        if drawn % 3 != 0:
            kind, doubled = "down" if doubled else "up", not doubled
        rows += instance(f"m{k}", kind, x=f"s{k - 1}", y=f"s{k}")
    return rows + ["end", f"trace s{size} last"]


def wide(sources=60, branches=500, pairs=464):
    """A source and eight or nine branches a cluster; most branches are a pair of modules."""
    rows = [*source("src"), *KEEP, *halving("half")]
    for kind in range(8):
        rows += source(f"src{kind}", f"timestep {kind + 1}us")
    rows.append("top")
    for c in range(sources):
        rows += instance(f"m{c}", f"src{c % 8}", y=f"s{c}")
        for b in range(branches // sources + (c < branches % sources)):
            rows += instance(f"m{c}_{b}", "half" if b % 3 == 2 else "keep", x=f"s{c}", y=f"s{c}_{b}")
            if pairs > 0:
                rows += instance(f"n{c}_{b}", "keep", x=f"s{c}_{b}", y=f"t{c}_{b}")
                pairs -= 1
    return rows + ["end"] + [f"trace s{c}_0 c{c}" for c in range(0, sources, 8)]


def main():
    models = {"chain500": lambda: chain(500), "wide": wide}
    if len(sys.argv) != 2 or sys.argv[1] not in models:
        sys.exit(__doc__.strip())
    print("\n".join(["language 1", "type w fixed 32 32", *models[sys.argv[1]]()]))


if __name__ == "__main__":
    main()
