"""Parts of documents that a script writes, between a line `<!-- NAME: by SCRIPT -->` and the next
`<!-- end -->`.
"""
import re


def pattern(name):
    return re.compile(rf"(<!-- {re.escape(name)}: [^\n]*-->\n)(.*?)(<!-- end -->)", re.S)


def part(text, name):
    """What stands in the text's part of this name."""
    return pattern(name).search(text)[2]


def with_part(text, name, body):
    """The text with this body in its part of this name."""
    if not pattern(name).search(text):
        raise SystemExit(f"there is no part `{name}`")
    return pattern(name).sub(lambda it: f"{it[1]}{body}{it[3]}", text)


def table(rows):
    """A table of Markdown, of which the first row is the head."""
    head, *rest = rows
    lines = [f"| {' | '.join(it)} |\n" for it in (head, *rest)]
    return "".join([lines[0], f"|{'---|' * len(head)}\n", *lines[1:]])


def rows_of(text):
    """The rows of a table of Markdown below its head, by cells."""
    lines = [it for it in text.splitlines() if it.startswith("|")]
    return [[cell.strip() for cell in it.strip("|").split(" | ")] for it in lines[2:]]
