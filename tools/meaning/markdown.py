"""A page of docs as HTML: headings, paragraphs, lists, tables, code and links, as the pages here use them."""
import html
import re

MARK = re.compile(r"`([^`]+)`|\[([^\]]+)\]\(([^)\s]+)\)|\*\*(.+?)\*\*")


def inline(text, link):
    """Text with its marks; link gives the address of what a link names, or None, and then its words stand alone."""
    found, at = [], 0
    for piece in MARK.finditer(text):
        found.append(html.escape(text[at : piece.start()], quote=False))
        at = piece.end()
        code, words, target, strong = piece.groups()
        if code is not None:
            found.append(f"<code>{html.escape(code, quote=False)}</code>")
        elif strong is not None:
            found.append(f"<strong>{inline(strong, link)}</strong>")
        else:
            address = link(target)
            found.append(f'<a href="{html.escape(address)}">{inline(words, link)}</a>' if address else inline(words, link))
    return "".join(found) + html.escape(text[at:], quote=False)


def cells(line):
    """The cells of a row; a bar behind a backslash is one of the text."""
    return [cell.strip().replace("\\|", "|") for cell in re.split(r"(?<!\\)\|", line.strip()[1:-1])]


def table(lines, link):
    head, _, *rows = lines
    top = "".join(f"<th>{inline(cell, link)}</th>" for cell in cells(head))
    body = "".join("<tr>" + "".join(f"<td>{inline(cell, link)}</td>" for cell in cells(row)) + "</tr>\n" for row in rows)
    return f"<table>\n<thead><tr>{top}</tr></thead>\n<tbody>\n{body}</tbody>\n</table>"


def block(lines, link, level):
    """One paragraph, heading, list or table."""
    text = "\n".join(lines)
    heading = re.fullmatch(r"(#+) (.*)", text)
    if heading:
        depth = min(len(heading[1]) + level, 6)
        return f"<h{depth}>{inline(heading[2], link)}</h{depth}>"
    if text.startswith("|"):
        return table(lines, link)
    entries = re.split(r"^(?:- |\d+\. )", text, flags=re.M)
    if entries[0] == "" and len(entries) > 1:
        kind = "ul" if text.startswith("-") else "ol"
        return f"<{kind}>" + "".join(f"<li>{inline(' '.join(entry.split()), link)}</li>" for entry in entries[1:]) + f"</{kind}>"
    return f"<p>{inline(' '.join(text.split()), link)}</p>"


def rendered(text, link, level=0):
    """The page; its headings stand so many levels lower."""
    found, lines, code = [], [], None
    for line in [*text.splitlines(), ""]:
        if line.startswith("```"):
            if code is None:
                code = []
            else:
                found.append("<pre>" + html.escape("\n".join(code), quote=False) + "</pre>")
                code = None
        elif code is not None:
            code.append(line)
        elif line.strip():
            lines.append(line)
        elif lines:
            found.append(block(lines, link, level))
            lines = []
    return "\n".join(found)
