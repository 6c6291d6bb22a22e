"""Readers of two formats of a report, written apart from the proved code: the page through Python's html.parser, and Prometheus' text
exposition format 0.0.4 by the words of its page.
"""
from html.parser import HTMLParser

# Elements of the page without an end tag (HTML Living Standard, section 13.1.2).
VOID = {"meta"}
HEADINGS = ("h1", "h2", "h3")


class Page(HTMLParser):
    """A page: what is wrong in it as HTML and for readers who do not see it, and what it shows: its title and the line below it, the
    counts, what is wrong, and of each device its heading, engine id and state and its rows, each with the texts of its cells.
    """

    def __init__(self, text):
        super().__init__(convert_charrefs=True)
        self.faults, self.open, self.texts, self.plots, self.notes, self.style, self.shown = [], [], [], [], [], "", ""
        self.title, self.head, self.refresh, self.headings = "", "", None, []
        self.counts, self.wrong, self.devices, self.meters, self.ids = [], [], [], [], []
        self.feed(text)
        self.close()
        if self.open:
            self.faults.append(f"not closed: {[tag for tag, _ in self.open]}")
        levels = [int(tag[1]) for tag in self.headings]
        if levels[:1] != [1] or levels.count(1) != 1 or any(b > a + 1 for a, b in zip(levels, levels[1:])):
            self.faults.append(f"headings {levels}")
        if len(set(self.ids)) != len(self.ids):
            self.faults.append(f"ids {self.ids}")

    def within(self, tag, **attrs):
        """Whether the parser is within such an element."""
        return any(it == tag and all(given.get(key.rstrip("_")) == value for key, value in attrs.items()) for it, given in self.open)

    def handle_starttag(self, tag, attrs):
        self.note(tag, dict(attrs))
        if tag not in VOID:
            self.open.append((tag, dict(attrs)))
            self.texts.append("")

    def handle_startendtag(self, tag, attrs):
        self.note(tag, dict(attrs))

    def note(self, tag, attrs):
        if tag == "script" or any(name.startswith("on") or name in ("src", "action") for name in attrs) or not attrs.get("href", "#").startswith("#"):
            self.faults.append(f"{tag} {attrs}")
        if tag == "html" and attrs.get("lang") != "en":
            self.faults.append("no language")
        if tag == "th" and attrs.get("scope") not in ("col", "row"):
            self.faults.append(f"a title without its scope: {attrs}")
        if tag == "svg" and (attrs.get("role") != "img" or not attrs.get("aria-label")):
            self.faults.append(f"a plot without words: {attrs}")
        if tag == "meta" and attrs.get("http-equiv") == "refresh":
            self.refresh = attrs["content"]
        if tag in HEADINGS:
            self.headings.append(tag)
        if "id" in attrs:
            self.ids.append(attrs["id"])
        if tag == "section" and attrs.get("id") != "wrong":
            self.devices.append({"id": attrs["id"], "open": attrs["class"] == "open", "heading": "", "engine": "", "line": "", "interfaces": [], "others": []})
        if tag == "table":
            self.captioned = False
        if tag == "thead" and not self.captioned:
            self.faults.append("a table without a caption")
        if tag == "tr" and self.within("tbody"):
            self.rows().append([])
        if tag == "path":
            self.plots.append((attrs.get("class"), attrs["d"]))
        if tag == "meter":
            self.meters.append((attrs["value"], attrs["max"]))

    def rows(self):
        return self.devices[-1]["interfaces" if self.within("table", class_="i") else "others"]

    def handle_endtag(self, tag):
        if not self.open or self.open[-1][0] != tag:
            self.faults.append(f"end of {tag}")
            return
        (_, attrs), text = self.open.pop(), self.texts.pop()
        if tag == "h1":
            self.title = text
        elif tag == "p" and self.within("header"):
            self.head = text
        elif tag == "p":
            self.devices[-1]["line"] = text.strip()
        elif tag == "li":
            (self.counts if self.within("ul", class_="counts") else self.wrong).append(text)
            return
        elif tag == "h3":
            self.devices[-1]["heading"] = text.strip()
            return
        elif tag == "small" and self.within("h3"):
            self.devices[-1]["engine"] = text
            return
        elif tag == "small" and self.within("td"):
            self.notes.append(text)
            return
        elif tag == "caption":
            self.captioned = True
        elif tag == "div" and self.within("td") or tag == "div" and self.within("th"):
            self.texts[-1] += ("; " if self.texts[-1] else "") + text
            return
        elif tag in ("td", "th") and self.within("tbody"):
            self.rows()[-1].append(text)
            return
        if tag in ("a", "b", "small", "span"):
            self.texts[-1] += text

    def handle_data(self, data):
        if self.open and self.open[-1][0] == "style":
            self.style += data
            return
        self.shown += data
        if self.texts:
            self.texts[-1] += data

    def handle_decl(self, decl):
        if decl != "DOCTYPE html" or self.shown.strip():
            self.faults.append(f"declaration {decl}")

    def handle_comment(self, data):
        self.faults.append(f"comment {data}")

    def handle_pi(self, data):
        self.faults.append(f"instruction {data}")


def label_value(line, at):
    """The value of a label from behind its opening quote, and the place behind its closing one."""
    value = ""
    while line[at] != '"':
        if line[at] == "\\":
            at += 1
            value += {"n": "\n", "\\": "\\", '"': '"'}[line[at]]
        else:
            value += line[at]
        at += 1
    return value, at + 1


def series_in(line):
    """A line of a metric: its name, its labels and its value."""
    brace = line.find("{")
    if brace < 0:
        name, value = line.split(" ")
        return name, {}, value
    labels, at = {}, brace + 1
    while line[at] != "}":
        equal = line.index("=", at)
        label = line[at:equal]
        if line[equal + 1] != '"' or label in labels or not (label.isascii() and label.isidentifier()):
            raise ValueError(f"label {label!r} of {line!r}")
        labels[label], at = label_value(line, equal + 2)
        if line[at] == ",":
            at += 1
    value = line[at + 1 :]
    if not value.startswith(" ") or value.count(" ") != 1:
        raise ValueError(f"value of {line!r}")
    return line[:brace], labels, value[1:]


def series(text):
    """All series of a text, whose lines end with a line feed alone."""
    if not text.endswith("\n"):
        raise ValueError("no line feed at the end")
    return [series_in(line) for line in text[:-1].split("\n") if not line.startswith("# ")]
