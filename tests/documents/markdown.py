"""A page as its checks see it: headings, links, tables, and the names that it gives in backquotes."""
import re
from pathlib import Path

NAME = re.compile(r"`([^`]+)`")
LINK = re.compile(r"\]\(([^) ]+)\)")
RULE = re.compile(r"\|[-|: ]*\|$")


class Page:
    """A page of Markdown, read once."""

    def __init__(self, top: Path, name: str) -> None:
        self.top, self.name = top, name
        self.text = (top / name).read_text(encoding="utf-8")
        self.lines = self.text.splitlines()

    def links(self) -> list[str]:
        """Returns where its links lead, those within the repository."""
        return [it for it in LINK.findall(self.text) if not it.startswith("http")]

    def anchors(self) -> set[str]:
        """Returns the names of its headings in links: small letters, digits, - and _, with - for a blank."""
        heads = [line.lstrip("#").strip().lower() for line in self.lines if line.startswith("#")]
        return {re.sub(r"[^a-z0-9_-]", "", head.replace(" ", "-")) for head in heads}

    def leads_somewhere(self, link: str) -> bool:
        """Whether a link of this page leads to a file and, if it names one, to a heading there."""
        file, _, anchor = link.partition("#")
        path = (self.top / self.name).parent / file if file else self.top / self.name
        if not path.exists():
            return False
        return not anchor or anchor in Page(self.top, str(path.resolve().relative_to(self.top))).anchors()

    def section(self, heading: str) -> list[str]:
        """Returns the lines from a heading of the second level to the next one."""
        found, inside = [], False
        for line in self.lines:
            if line.startswith("## "):
                inside = line == f"## {heading}"
            elif inside:
                found.append(line)
        return found

    def headings(self) -> list[str]:
        """Returns its headings of the second level."""
        return [line[3:] for line in self.lines if line.startswith("## ")]

    def torn_tables(self) -> list[str]:
        """Returns the first row of each table that isn't a head, a line of dashes, and rows of as many cells."""
        torn, table = [], []
        for line in [*self.lines, ""]:
            if line.startswith("|"):
                table.append(line)
                continue
            if table and (len(table) < 2 or not RULE.match(table[1]) or len({len(cells(row)) for row in table}) > 1):
                torn.append(table[0])
            table = []
        return torn

    def longer_lines(self, columns: int) -> list[int]:
        """Returns the numbers of its lines that have more columns."""
        return [number for number, line in enumerate(self.lines, 1) if len(line) > columns]

    def quoted(self, pattern: str) -> list[str]:
        """Returns the names in backquotes where the pattern is found; `A::b` gives both A and b."""
        found = [name for part in re.finditer(pattern, self.text) for name in NAME.findall(part[0])]
        return sorted({word for name in found for word in name.split(":") if word})


def cells(row: str) -> list[str]:
    """Returns the cells of a row of a table. A bar within backquotes ends none."""
    whole = re.sub(r"`[^`]*`", lambda name: name[0].replace("|", "\0"), row)
    return [it.strip().replace("\0", "|") for it in whole.strip().strip("|").split("|")]


def rows(lines: list[str]) -> list[list[str]]:
    """Returns the rows of the tables in these lines as cells, without heads."""
    found: list[list[str]] = []
    for before, line in zip(["", *lines], lines):
        if RULE.match(line) and line.startswith("|"):
            found.pop()
        elif line.startswith("|"):
            found.append(cells(line))
    return found


def items(lines: list[str]) -> list[str]:
    """Returns the items of the lists in these lines, each in one line."""
    found: list[str] = []
    inside = False
    for line in lines:
        if line.startswith("- "):
            found.append(line[2:])
            inside = True
        elif inside and line.startswith("  "):
            found[-1] += " " + line.strip()
        else:
            inside = False
    return found
