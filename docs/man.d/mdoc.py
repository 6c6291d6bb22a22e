"""Writes mdoc(7): text with backquotes, help texts of commands, and the Markdown of docs/."""
import re

SENTENCE = re.compile(r"(?<=[.!?:]) +(?=[A-Z(`])")


def escaped(text):
    """The text of a line, with nothing in it that roff would take for its own."""
    return text.replace("\\", "\\e").replace("--", "\\-\\-")


def code(text):
    return escaped(text).replace("\\-", "-").replace("-", "\\-")


def word(text):
    """A word of a macro's line, which is no macro and ends no line."""
    shown = code(text).replace('"', "\\(dq")
    return "\\&" + shown if re.fullmatch(r"[A-Z%][A-Za-z0-9]{1,2}|[.,:;()\[\]?!|]", text) else shown


def words(text):
    """The argument of a macro: words with code in bold."""
    parts = re.split(r"`([^`]*)`", text.replace("**", "").replace("*", ""))
    shown = [
        " ".join(word(w) for w in part.split(" "))
        if i % 2 == 0
        else "\\fB" + code(part).replace('"', "\\(dq") + "\\fR"
        for i, part in enumerate(parts)
    ]
    return "".join(shown)


def inline(text):
    """Running text: backquoted words in bold, links as their text."""
    text = re.sub(r"\[([^\]]*)\]\([^)]*\)", r"\1", text)
    parts = re.split(r"`([^`]*)`", text)
    return "".join(
        escaped(part) if i % 2 == 0 else f"\\fB{code(part)}\\fR" for i, part in enumerate(parts)
    )


def sentences(text):
    """Running text, a sentence on each line."""
    plain, parts = re.sub(r"\*\*([^*]*)\*\*", r"\1", text), []
    for part in SENTENCE.split(" ".join(plain.split())):
        # Within backquotes nothing is split.
        if parts and parts[-1].count("`") % 2:
            parts[-1] += " " + part
        else:
            parts.append(part)
    lines = [inline(part) for part in parts]
    return [("\\&" + line) if line[:1] in (".", "'") else line for line in lines]


def paragraph(text):
    return [".Pp", *sentences(text)]


def literal(lines):
    return [
        ".Bd -literal -offset indent",
        *[("\\&" + code(line)) if line[:1] in (".", "'") else code(line) for line in lines],
        ".Ed",
    ]


def width(terms):
    """The width of a list's terms, in columns."""
    return min(max(len(term.replace("`", "")) for term in terms), 22) + 2


def tagged(items):
    """A list of terms, each with what it is."""
    lines = [f".Bl -tag -width {width([term for term, _ in items])}n"]
    for term, body in items:
        lines += [f".It {words(term)}", *(sentences(body) if body else ["\\&"])]
    return [*lines, ".El"]


def help_list(lines):
    """The items of an indented block of a help text, or none if it is no list."""
    items = []
    for line in lines:
        if m := re.match(r"  (\S.*?) {2,}(\S.*)$", line):
            items.append([m[1], m[2]])
        elif items and re.match(r" {4,}\S", line):
            items[-1][1] += " " + line.strip()
        else:
            return []
    return items


def help_text(text):
    """The long help text of a command."""
    lines = []
    for block in text.split("\n\n"):
        rows = block.splitlines()
        if m := re.match(r"Examples?: +", block):
            lines += [
                ".Pp",
                "Examples:" if len(rows) > 1 else "Example:",
                *literal([row.removeprefix(m[0]).strip() for row in rows]),
            ]
        elif all(row.startswith("  ") for row in rows):
            items = help_list(rows)
            lines += tagged(items) if items else literal([row.strip() for row in rows])
        else:
            lines += paragraph(block)
    return lines


def cells(row):
    return [cell.strip().replace("\\|", "|") for cell in re.split(r"(?<!\\)\|", row.strip())[1:-1]]


def table(rows):
    """A table of Markdown: the cells before the last one are the term of an item."""
    items = [
        (" ".join(row[:-1]), row[-1])
        for row in map(cells, rows)
        if not all(re.fullmatch(r":?-+:?", cell) for cell in row)
    ]
    head, rest = items[0], items[1:]
    lines = [
        f".Bl -tag -width {width([term for term, _ in rest])}n",
        f".It Em {words(head[0])}",
        f".Em {words(head[1])}",
    ]
    for term, body in rest:
        lines += [f".It {words(term)}", *(sentences(body) if body else ["\\&"])]
    return [*lines, ".El"]


def markdown(text):
    """The blocks of a text in Markdown, as docs/ has it, without its title."""
    lines = []
    for block in re.split(r"\n\s*\n", text.strip()):
        rows = block.splitlines()
        if rows[0].startswith("# "):
            continue
        if rows[0].startswith("## "):
            lines.append(f".Sh {words(rows[0][3:].upper())}")
        elif rows[0].startswith("|"):
            lines += table(rows)
        elif rows[0].startswith("    "):
            lines += literal([row[4:] for row in rows])
        elif rows[0].startswith("- "):
            items = re.split(r"^- ", block, flags=re.M)[1:]
            lines += [
                ".Bl -bullet",
                *[line for item in items for line in [".It", *sentences(item)]],
                ".El",
            ]
        else:
            lines += paragraph(block)
    # No paragraph begins right after a head.
    return [
        line
        for at, line in enumerate(lines)
        if not (line == ".Pp" and at and lines[at - 1].startswith(".Sh"))
    ]
