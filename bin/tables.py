"""The parts of a document in Markdown."""


def table(*rows: str) -> str:
    """A table of rows whose cells are separated by bars. The first row is the head."""
    head, *others = rows
    line = "|" + "---|" * (head.count(" | ") + 1)
    return "\n".join([f"| {head} |", line, *(f"| {row} |" for row in others)]) + "\n"
