"""Makes the body of a manual page of a page in Markdown: of its headings, paragraphs, lists, tables and blocks of code."""
import re

# A quote, a bold text or a slanted one.
MARKED = re.compile(r"`([^`]+)`|\*\*(.+?)\*\*|(?<!\w)\*(\w[^*]*)\*")


def line_of(text):
    """A line whose signs mean nothing to roff."""
    text = text.replace("\\", "\\e").replace("-", "\\-")
    return "\\&" + text if text[:1] in (".", "'", "") else text


def spans(text, links):
    """A line of Markdown, with its quotes in bold. `links` says what stands for a link, by its text and its target."""
    text = re.sub(r"\[([^\]]+)\]\(([^)]+)\)", lambda it: links(it[1], it[2]), text)
    text = MARKED.sub(lambda it: f"\1{it[1] or it[2]}\3" if it[1] or it[2] else f"\2{it[3]}\3", text)
    return line_of(text).replace("\1", "\\fB").replace("\2", "\\fI").replace("\3", "\\fR")


def table(lines, links):
    """The rows of a table: each is a tag, its first cell, and its other cells, with their heads where there are some."""
    heads, *rows = [[cell.strip() for cell in it.strip()[1:-1].split(" | ")] for it in (lines[0], *lines[2:])]
    for tag, *cells in rows:
        told = [f"{head}: {cell.rstrip('.')}." for head, cell in zip(heads[1:], cells) if cell] if len(heads) > 2 else cells
        yield from (".TP", spans(tag, links), spans(" ".join(told), links))


def block_at(lines, place, links):
    """The roff of the block that begins at a place, and the place behind it."""
    line, end = lines[place], place + 1
    if line.startswith("```"):
        while not lines[end].startswith("```"):
            end += 1
        return [".PP", ".RS 4", ".nf", *(line_of(it) for it in lines[place + 1:end]), ".fi", ".RE"], end + 1
    if line.startswith("|"):
        while end < len(lines) and lines[end].startswith("|"):
            end += 1
        return list(table(lines[place:end], links)), end
    if re.match(r"(-|\d+\.) ", line):
        mark, _, rest = line.partition(" ")
        sign = "\\(bu" if mark == "-" else mark
        return [f".IP {sign} 4", spans(rest, links)], end
    return ([".PP", spans(line, links)] if line.strip() else []), end


def roff(text, links, leaves_out=()):
    """The body of a manual page, of a page without its title, and without the sections with these headings."""
    lines = text.splitlines()
    out, place, skipped = [], 0, 0
    while place < len(lines):
        heading = re.match(r"(#+) (.*)", lines[place])
        if heading:
            depth, title = len(heading[1]), heading[2]
            if not skipped or depth <= skipped:
                skipped = depth if title in leaves_out else 0
            block, place = [f".S{'H' if depth == 2 else 'S'} {spans(title, links)}"], place + 1
        else:
            block, place = block_at(lines, place, links)
        out += [] if skipped else block
    return "\n".join(out) + "\n"
