"""What the tools read of the repository: its crates, which of them stand on which, and the comments
that its files begin with."""
import re
from pathlib import Path

TOP = Path(__file__).resolve().parent.parent
LONG = 60  # characters of what is said of a crate
CALL = re.compile(r"^\s*(?:pub )?use (\w+)|\b([a-z]\w*)::", re.M)
CITE = re.compile(r"^\s*(?:ghost )?use Rattle\.(\w+)\.", re.M)


def read_crates():
    """Each crate with the libraries that crates.txt gives it, in its order, lowest first."""
    crates = {}
    for line in (TOP / "crates.txt").read_text().splitlines():
        name, colon, libraries = line.partition("#")[0].partition(":")
        if colon:
            crates[name.split()[0]] = libraries.split()
    return crates


def root_file(crate):
    folder = TOP / "crates" / crate / "src"
    return next(path for path in (folder / "lib.rt", folder / "main.rt") if path.exists())


def head_comment(path, mark):
    """The lines of the comment that a file begins with, without their mark."""
    comment = []
    for line in path.read_text().splitlines():
        if not line.startswith(mark):
            break
        comment.append(line[len(mark) :].strip())
    return comment


def code_of(path):
    """A source without its comments, its contracts' imports and its tests' module."""
    lines = path.read_text().splitlines()
    return "\n".join(line for line in lines if not line.lstrip().startswith(("//", "ghost use")))


def named_by(crate):
    """The words that may be libraries: those that a crate's code calls, those that its contracts and
    definitions name, and those that its tests name."""
    folder = TOP / "crates" / crate
    calls, cites, tests = set(), set(), set()
    for path in folder.glob("src/**/*.rt"):
        is_test = "tests" in path.parts or path.name == "tests.rt"
        (tests if is_test else calls).update(a or b for a, b in CALL.findall(code_of(path)))
        cites.update(CITE.findall(path.read_text()))
    for path in folder.glob("specs/*.antt"):
        cites.update(CITE.findall(path.read_text()))
    return calls, cites, tests


def is_program(name, crates):
    """A crate is a program, which no other stands on, though a module may have its name."""
    return name in crates and root_file(name).name == "main.rt"


class Crate:
    """A crate's libraries by why it has them, in the order of crates.txt, the kit's last."""

    def __init__(self, name, crates):
        calls, cites, tests = named_by(name)
        named = [library for libraries in crates.values() for library in libraries]
        libraries = [it for it in [*crates, *named] if not is_program(it, crates)]
        others = [it for it in dict.fromkeys(libraries) if it != name]
        self.calls = [it for it in others if it in calls]
        self.cites = [it for it in others if it in cites and it not in calls]
        self.own = [it for it in self.calls + self.cites if it in crates]
        self.rest = [it for it in crates[name] if it not in self.calls + self.cites]
        used = self.calls + self.cites + [it for it in others if it in tests]
        self.missing = [it for it in dict.fromkeys(used) if it not in crates[name]]


def below(name, crates):
    """Every crate of ours that a crate stands on, however deep."""
    return set(crates[name].own).union(*(below(it, crates) for it in crates[name].own))


def children(name, crates):
    """The crates that a crate stands on and that no other of them stands on, the highest first."""
    own = crates[name].own
    deeper = set().union(*(below(it, crates) for it in own))
    return sorted((it for it in own if it not in deeper), key=lambda it: -len(below(it, crates)))


def read_standing():
    """Each crate with the libraries that it stands on, in the order of crates.txt."""
    given = read_crates()
    return {name: Crate(name, given) for name in given}


def first_sentence(crate):
    """What a crate's root file says that it is, up to a comma where that is long."""
    said = " ".join(head_comment(root_file(crate), "//!"))
    said = re.split(r"(?<=[\w)`])[.:](?=\s|$)|; ", said)[0].replace("`", "")
    return re.match(r"(?:\([^)]*\)|[^,(])*", said)[0] if len(said) > LONG else said
