"""The libraries that `rt ci` has built, and the words by which the prover checks or builds a crate over them."""
import os
import subprocess

ROOT = os.path.dirname(os.path.dirname(os.path.realpath(__file__)))
KIT = os.path.dirname(subprocess.run(["rt", "doc"], capture_output=True, text=True, check=True).stdout.strip())


def dependencies():
    """What crates.txt says that each crate uses, in its order."""
    with open(f"{ROOT}/crates.txt", encoding="utf-8") as lines:
        rows = [line.split("#")[0].partition(":") for line in lines]
    return {name.split()[0]: uses.split() for name, colon, uses in rows if colon}


USES = dependencies()


def below(crate):
    """All crates of the repository that the crate reaches."""
    found = [it for it in USES[crate] if it in USES]
    for it in found:
        found += [more for more in USES[it] if more in USES and more not in found]
    return list(dict.fromkeys(found))


def library(crate):
    return f"{ROOT}/crates/{crate}/out/rlib/{crate}.rlib"


def words(crate):
    """The words of a check of the crate over the built libraries, as rt gives them."""
    said = ["--crate-name", crate, "src/lib.rt"]
    for it in ["std", *USES[crate]]:
        said += ["--extern", f"{it}={library(it) if it in USES else f'{KIT}/rlibs/{it}.rlib'}"]
    said += ["-L", f"dependency={KIT}/rlibs"]
    for it in below(crate):
        said += ["-L", f"dependency={os.path.dirname(library(it))}"]
    return [*said, "--antt-project", f"{KIT}/rattle/logic/antt-project.json", "--logic-built", f"{KIT}/logic_built", "--jobs", "1"]


def build_archive(crate, to):
    """Builds the static library of the crate, over the libraries that are built: `rt lib` would prove these anew."""
    how = ["--crate-type", "staticlib", "--toolchain", f"{KIT}/toolchain", "--backend", "llvm", "-o", to]
    subprocess.run([f"{KIT}/bin/rattle", "build", *words(crate), *how], check=True, cwd=f"{ROOT}/crates/{crate}", stdin=subprocess.DEVNULL)
