"""The table that bench/run prints, and what its picture shows."""

import math

from programs import Failed


class Table:
    """The rows of the table, each with what was asked, and the bars of the picture: a name, how many times as good the hub
    is as what it was measured beside, and how many times was asked, if anything was."""

    def __init__(self, rows=(), bars=()):
        self.rows, self.bars = list(rows), list(bars)

    def add(self, what, asked, measured, holds, figures):
        self.rows.append((what, asked, measured, {True: "yes", False: "NO", None: "-"}[holds], figures))

    def add_rate(self, what, least, ours, theirs, names):
        """A ratio of rates, of which the higher is the better."""
        figures = f"{names[0]} {ours:,.0f}/s, {names[1]} {theirs:,.0f}/s"
        ratio = ours / theirs
        # (rounded down, so that no ratio below what was asked looks like it)
        self.add(what, asked_as(">= {:.2f}", least), f"{math.floor(100 * ratio) / 100:.2f}", least and ratio >= least, figures)
        self.bars.append((what, ratio, least))

    def add_time(self, what, most, ours, theirs, figures):
        """A ratio of times, of which the lower is the better."""
        ratio = ours / theirs
        self.add(what, f"<= {most:.2f}", f"{math.ceil(100 * ratio) / 100:.2f}", ratio <= most, figures)
        self.bars.append((what, 1 / ratio, 1 / most))

    def lack(self, what, asked, why):
        self.rows.append((what, asked, "-", "FAILED" if isinstance(why, Failed) else "missing", str(why)))

    def lack_ratio(self, what, asked, why):
        self.lack(what, asked, why)
        self.bars.append((what, None, None))

    def all_hold(self):
        return all(row[3] not in ("NO", "FAILED") for row in self.rows)

    def text(self):
        rows = [("What", "Asked", "Measured", "Holds", "Figures")] + self.rows
        widths = [max(len(row[i]) for row in rows) for i in range(5)]
        lines = ["| " + " | ".join(cell.ljust(width) for cell, width in zip(row, widths)) + " |" for row in rows]
        lines.insert(1, "|" + "|".join("-" * (width + 2) for width in widths) + "|")
        return "\n".join(lines)


def asked_as(form, limit):
    return "-" if limit is None else form.format(limit)


def counted(number, name):
    return f"{number} {name}{'s' * (number > 1)}"
