"""A manual page, as far as tools/check-manuals reads its mdoc source."""
import re
from dataclasses import dataclass, field

# Macros that leave nothing but the words behind them.
PLAIN = {"Ar", "Cm", "Ic", "Li", "Sy", "Em", "Pa", "Dv", "Sx", "It", "No", "Ql", "Pq", "Nd"}
ENDS = set(".,:;)")  # stand at the word before them


@dataclass
class Item:
    """An item of a list: its head, what is said of it, and the lists inside of that."""

    head: str
    said: str = ""
    inner: list = field(default_factory=list)

    def cells(self):
        """Those of a row, of which the last may go on behind its line."""
        return [cell.strip() for cell in f"{self.head} {self.said}".split("\t")]


class Page:
    """A manual page: its lines by the titles of its sections and subsections."""

    def __init__(self, path):
        self.name, _, section = path.name.rpartition(".")
        self.title = f"{self.name}({section})"
        self.sections = {}
        lines = []
        for line in path.read_text().splitlines():
            if line.startswith((".Sh ", ".Ss ")):
                lines = self.sections.setdefault(" ".join(words_of(line)[1:]), [])
            elif not line.startswith('.\\"'):
                lines.append(line)

    def text(self, *titles):
        """What these sections show, or all of them."""
        lines = (line for it in titles or self.sections for line in self.sections.get(it, []))
        return "\n".join(map(self.shown, lines))

    def shown(self, line):
        """What a line shows, as plain text, with a tab between two cells of a row."""
        if not line.startswith("."):
            return line.replace("\\&", "")
        words = words_of(line)
        if words[0] not in PLAIN | {"Fl", "Nm", "Op", "Xr"}:
            return ""
        shown, dashed, joined, behind = "", False, True, ""
        while words:
            word = words.pop(0)
            if word in PLAIN or word == "Fl":
                dashed = word == "Fl"
            elif word == "Ns":
                joined = True
            elif word == "Ta":
                shown, joined = f"{shown}\t", True
            elif word == "Op":
                shown, joined, behind = f"{shown} [".lstrip(), True, "]"
            else:
                if word == "Xr":
                    word = f"{words.pop(0)}({words.pop(0)})"
                elif word == "Nm":
                    word = self.name
                elif dashed and word not in ENDS | {"|"}:
                    word = f"-{word}"
                space = "" if joined or word in ENDS else " "
                shown, joined = shown + space + word.replace("\\&", ""), False
        return shown + behind

    def lists(self, title):
        """The lists of a section, each as its items."""
        top = Item("")
        open_lists = [[top]]  # the outermost holds one item with all lists of the section
        for line in self.sections.get(title, []):
            items = open_lists[-1]
            if line.startswith(".It"):
                items.append(Item(self.shown(line)))
            elif line.startswith(".El"):
                open_lists = open_lists[:-1] or open_lists
            elif items and line.startswith(".Bl"):
                items[-1].inner.append([])
                open_lists.append(items[-1].inner[-1])
            elif items:
                items[-1].said = f"{items[-1].said} {self.shown(line)}".strip()
        return top.inner

    def items(self, title, place=0):
        """The items of one list of a section; none where it has no such list."""
        return dict(enumerate(self.lists(title))).get(place, [])

    def table(self, title):
        """The rows of a section's table behind its first, each by its first cell."""
        rows = [item.cells() for item in self.items(title)]
        return {row[0]: row[1:] for row in rows[1:]}


def words_of(line):
    """The words of a line that begins with a macro, of which some may stand in quotation marks."""
    return [quoted or bare for quoted, bare in re.findall(r'"([^"]*)"|(\S+)', line[1:])]
