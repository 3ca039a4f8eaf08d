"""What tests/archive and tests/wrong-programs share: the crates of crates.txt, the libraries built of them, and how the prover is told of both."""
import os, subprocess, sys

ROOT = os.path.dirname(os.path.dirname(os.path.abspath(__file__)))
KIT = "/opt/rattle"
PARTS = ("src", "specs", "proofs")
os.environ["PATH"] += os.pathsep + f"{KIT}/bin"


def dependencies():
    """What each crate builds on, and which crates are static libraries."""
    found, static = {}, set()
    for line in open(f"{ROOT}/crates.txt", encoding="utf-8"):
        head, _, rest = line.split("#")[0].partition(":")
        words = head.split()
        if words:
            found[words[0]] = rest.replace(",", " ").split()
            if "staticlib" in words:
                static.add(words[0])
    return found, static


DEPS, STATIC = dependencies()
BELOW = {}


def below(name):
    """The repository's crates below this one, each after those that it uses."""
    if name not in BELOW:
        found = []
        for d in DEPS[name]:
            if d in DEPS:
                found += [it for it in [*below(d), d] if it not in found]
        BELOW[name] = found
    return BELOW[name]


def below_all(names):
    return list(dict.fromkeys(d for name in names for d in below(name)))


def is_program(name):
    return os.path.isfile(f"{ROOT}/crates/{name}/src/main.rt")


def files_of(name):
    for part in PARTS:
        for at, _, names in os.walk(f"{ROOT}/crates/{name}/{part}"):
            yield from (f"{at}/{it}" for it in names)


def newest(name):
    """When a file of the crate, or crates.txt, was last changed, added or removed."""
    folders = [at for part in PARTS for at, _, _ in os.walk(f"{ROOT}/crates/{name}/{part}")]
    return max(os.stat(it).st_mtime for it in [f"{ROOT}/crates.txt", *folders, *files_of(name)])


def rlib(name):
    return f"{ROOT}/crates/{name}/out/rlib/{name}.rlib"


def is_of_ci(name):
    """Whether the library in the crate's out/ is what `rt ci` left (the other commands mark theirs by a stamp), and no older than the crate."""
    at = rlib(name)
    return os.path.isfile(f"{at}/format") and not os.path.exists(f"{os.path.dirname(at)}/stamp") and os.stat(at).st_mtime >= newest(name)


def build(names):
    """Has the libraries below these crates built: those that `rt ci` left serve where all are there and none is older than its crate. Else
    `rt lib` builds what is missing or was made of other files; the two kinds do not go with one another. Gives what fails, if it does."""
    under = below_all(names)
    if all(map(is_of_ci, under)):
        return None
    for top in under:
        if not any(top in below(other) for other in under):
            status, out = rt_lib(top)
            if status:
                return f"{out}\n{top} is not proved"
    return None


def rt_lib(name):
    """How `rt lib` ends for a crate, and the last lines of what it says."""
    ran = subprocess.run(["rt", "lib"], cwd=f"{ROOT}/crates/{name}", stdin=subprocess.DEVNULL, stdout=subprocess.PIPE, stderr=subprocess.STDOUT,
                         text=True, errors="replace")
    return ran.returncode, "\n".join(ran.stdout.rstrip("\n").split("\n")[-20:])


def words_of(names, of_kit):
    """How the libraries that these crates use, and the logic, are named to the prover."""
    words = []
    for d in dict.fromkeys([*of_kit, *(d for name in names for d in DEPS[name])]):
        words += ["--extern", f"{d}={rlib(d) if d in DEPS else f'{KIT}/rlibs/{d}.rlib'}"]
    words += ["-L", f"dependency={KIT}/rlibs"]
    for d in below_all(names):
        words += ["-L", f"dependency={os.path.dirname(rlib(d))}"]
    return words + ["--antt-project", f"{KIT}/rattle/logic/antt-project.json", "--logic-built", f"{KIT}/logic_built", "--jobs", "1"]


def rattle(words, cwd):
    """How the prover ends, and what it says."""
    ran = subprocess.run([f"{KIT}/bin/rattle", *words], cwd=cwd, stdin=subprocess.DEVNULL, stdout=subprocess.PIPE, stderr=subprocess.STDOUT,
                         text=True, errors="replace")
    return ran.returncode, ran.stdout
