"""The kit's compiler, over the libraries that `rt ci` has proved and left in this checkout: of the gate, so that it proves nothing twice."""
import os
import subprocess

from crates_list import ROOT, below, dependencies


def home():
    """The kit's folder."""
    r = subprocess.run(["rt", "doc"], stdout=subprocess.PIPE, text=True, check=True)
    return os.path.dirname(r.stdout.strip())


def folder(crate):
    return os.path.join(ROOT, "crates", crate)


def libraries(crate):
    """Where the library of a crate is built."""
    return os.path.join(folder(crate), "out", "rlib")


def left_by_ci(crate):
    """Whether `rt ci` has left every library below a crate. Those of other commands have a stamp, and may be of an older source."""
    return all(
        os.path.exists(os.path.join(libraries(c), f"{c}.rlib", "format")) and not os.path.exists(os.path.join(libraries(c), "stamp"))
        for c in below(crate))


def words(crate):
    """What the compiler is given of a crate: its source, and the libraries on which it rests."""
    kit, deps = home(), dependencies()
    root = "main.rt" if os.path.exists(os.path.join(folder(crate), "src", "main.rt")) else "lib.rt"
    out = ["--crate-name", crate, f"src/{root}", "-L", f"dependency={kit}/rlibs"]
    for name in ["std"] + deps[crate]:
        at = libraries(name) if name in deps else f"{kit}/rlibs"
        out += ["--extern", f"{name}={at}/{name}.rlib"]
    for name in below(crate):
        out += ["-L", f"dependency={libraries(name)}"]
    return out + ["--antt-project", f"{kit}/rattle/logic/antt-project.json", "--logic-built", f"{kit}/logic_built", "--links", f"{crate}="]


def compiler(command, crate, *more):
    """Runs a command of the compiler on a crate; what it says, and its exit status."""
    r = subprocess.run([f"{home()}/bin/rattle", command, *words(crate), *more], cwd=folder(crate), stdin=subprocess.DEVNULL,
                       stdout=subprocess.PIPE, stderr=subprocess.STDOUT, text=True, errors="replace")
    return r.stdout, r.returncode
