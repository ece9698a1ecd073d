"""The repository's root and what crates.txt says, for the tools that read it."""
import os

ROOT = os.path.dirname(os.path.dirname(os.path.abspath(__file__)))


def rows():
    """The lines of crates.txt: a crate's words, its name first, and the crates that it rests on."""
    with open(os.path.join(ROOT, "crates.txt"), encoding="utf-8") as f:
        for line in f:
            name, colon, deps = line.split("#")[0].partition(":")
            if colon:
                yield name.split(), deps.split()


def dependencies():
    """The crates of the repository, each with those that it rests on, libraries of the kit among them."""
    return {words[0]: deps for words, deps in rows()}


def static_libraries():
    """The crates that are static libraries for C, on which no other rests."""
    return [words[0] for words, _ in rows() if "staticlib" in words]


def below(crate):
    """The crates of the repository on which a crate rests, at one remove or more."""
    deps, out, todo = dependencies(), [], [crate]
    while todo:
        for name in deps[todo.pop()]:
            if name in deps and name not in out:
                out.append(name)
                todo.append(name)
    return out
