"""What was measured as tables and plots, and the page that shows them."""

from __future__ import annotations

import os
import shutil
import subprocess
import sys
from typing import Callable, Dict, List, Optional, Sequence

MEASURED = ("<!-- measured -->", "<!-- end of what was measured -->")

# A curve by counts, for each system; and each system's colour.
Curves = Dict[str, Dict[int, float]]
LAZYSET, REDIS = "lazyset", "Redis"
COLOURS = {LAZYSET: "#1f6fb2", REDIS: "#c0392b"}


def table(heads: Sequence[str], rows: Sequence[Sequence[str]]) -> List[str]:
    """A table, and an empty line; nothing where it has no rows."""
    lines = [heads, ["---"] + ["---:"] * (len(heads) - 1), *rows]
    return ["| " + " | ".join(line) + " |" for line in lines] + [""] if rows else []


def number(value: Optional[float]) -> str:
    """A figure, or a dash where nothing was measured."""
    if value is None:
        return "-"
    return f"{value:,.0f}" if value >= 100 else f"{value:.1f}" if value >= 10 else f"{value:.2f}"


def by_connections(head: str, names: Sequence[str], counts: Sequence[int], value: Callable[[str, int], Optional[float]]) -> List[str]:
    """A table with a row for each name, and a column for each number of connections."""
    heads = [head, *(f"{count:,} connections" if count > 1 else "1 connection" for count in counts)]
    rows = [[name, *(number(value(name, count)) for count in counts)] for name in names]
    return table(heads, rows)


def panel(curves: Curves, name: str) -> str:
    """What draws one picture: curves over counts, both in powers."""
    counts = sorted({count for curve in curves.values() for count in curve})
    labels = ", ".join(f'"{count:,}" {count}' for count in counts)
    form = "%.0f" if min(min(curve.values()) for curve in curves.values()) >= 1 else "%g"
    blocks = ["\n".join([f"$d{i} << EOD", *(f"{count} {value:.4g}" for count, value in curve.items()), "EOD\n"]) for i, curve in enumerate(curves.values())]
    drawn = ", ".join(f'$d{i} with linespoints lw 2 pt 7 lc rgb "{COLOURS[system]}" title "{system}"' for i, system in enumerate(curves))
    ranges = f"set xrange [{0.8 * counts[0]}:{1.25 * counts[-1]}]\nset xtics ({labels}) rotate by -45\nset format y \"{form}\"\n"
    return "".join(blocks) + f'set title "{name}"\n{ranges}plot {drawn}\n'


def plot(panels: Dict[str, Curves], path: str, across: str, up: str) -> None:
    """Pictures side by side, over one another's measure: each system has its colour in all of them."""
    values = [value for curves in panels.values() for curve in curves.values() for value in curve.values()]
    script = (
        f'set terminal svg size 820,360 font "sans-serif,13" background "white"\nset output "{path}"\n'
        f'set logscale x 2\nset logscale y\nset yrange [{0.7 * min(values)}:{1.5 * max(values)}]\nset xlabel "{across}"\nset ylabel "{up}"\n'
        f"set key bottom right\nset grid\nset multiplot layout 1,{len(panels)}\n"
    )
    script += "".join(panel(curves, name) for name, curves in panels.items()) + "unset multiplot\n"
    subprocess.run(["gnuplot"], input=script, text=True, check=True)


def plot_all(plots: Dict[str, Dict[str, Curves]], page: str, across: str = "connections", up: str = "commands a second") -> List[str]:
    """Draws each plot beside a page, and gives the lines that show them."""
    if shutil.which("gnuplot") is None:
        print("left out: gnuplot isn't installed", file=sys.stderr)
        return []
    for title, panels in plots.items():
        plot(panels, os.path.join(os.path.dirname(page), f"bench-{title}.svg"), across, up)
    return [f"![{title}: {up} by {across}](bench-{title}.svg)" for title in plots] + [""]


def lay_into(page: str, lines: Sequence[str], first_mark: str, last_mark: str) -> None:
    """Puts the lines between two marks of a page."""
    with open(page, encoding="utf-8") as file:
        text = file.read()
    before, _, rest = text.partition(first_mark)
    _, _, after = rest.partition(last_mark)
    with open(page, "w", encoding="utf-8") as file:
        file.write("\n".join([before + first_mark, "", *lines]) + last_mark + after)
