"""Figures, and tables of them in Markdown."""


def number(value):
    """Three digits, but whole numbers as they are, and nothing for what was not measured."""
    if value is None:
        return ""
    return f"{value:,.0f}" if value >= 100 or value == int(value) else f"{value:.3g}"


def table(head, rows, names):
    """The lines of a table whose rows begin with so many names. A row without a figure is left out."""
    rows = [row for row in rows if any(row[names:])]
    return "\n".join("| " + " | ".join(row) + " |" for row in [head, ["---"] * len(head)] + rows)
