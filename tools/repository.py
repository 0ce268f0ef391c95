"""What the tools of this folder share: the repository's crates, definitions and rules as they are read, the command line, and a run of rt."""
import re
import shutil
import subprocess
import sys
from pathlib import Path

ROOT = Path(__file__).resolve().parent.parent
CRATES = ROOT / "crates"
NAME = r"[\w'-]+"
RULE = r"\d+\.\d+"


def read(path):
    return path.read_text(encoding="utf-8")


faults = []


def fault(text):
    """Notes what is wrong, for the verdict."""
    faults.append(text)


def verdict(good):
    """Prints what is wrong, or what is good where nothing is; the status to end with."""
    print("\n".join(faults) or good)
    return 1 if faults else 0


def spec_files():
    """The files of definitions, without those that only list the others."""
    return sorted(p for p in CRATES.glob("*/specs/*.antt") if p.name != "Lib.antt")


def defined_in(path):
    """The names that a file of specs defines, and the fields of its records as Record.field and by themselves."""
    names, record = set(), ""
    for line in read(path).split("\n"):
        found = re.match(rf"(?:abbrev |unfoldable )?pub (record |data )?({NAME})", line)
        if found and found.group(2) not in ("use", "mod"):
            names.add(found.group(2))
            record = found.group(2) if found.group(1) else ""
        field = re.match(rf"  pub ({NAME}) :", line)
        if field and record:
            names.update((f"{record}.{field.group(1)}", field.group(1)))
    return names


def declared_in(path):
    """The types that a source declares."""
    return set(re.findall(r"^pub (?:struct|enum) (\w+)", read(path), re.M))


def places():
    """The files of specs that define a name, by (crate, name); for a type that a source declares, none."""
    found = {}
    for path in CRATES.glob("*/src/*.rt"):
        for name in declared_in(path):
            found.setdefault((path.parts[-3], name), set())
    for path in spec_files():
        for name in defined_in(path):
            found.setdefault((path.parts[-3], name), set()).add(path)
    return found


def claim_rows():
    """The rows of the tables of docs/CLAIMS.md, each as its line's number and its cells."""
    for number, line in enumerate(read(ROOT / "docs" / "CLAIMS.md").split("\n"), 1):
        cells = [cell.strip() for cell in line.strip().strip("|").split(" | ")] if line.startswith("| ") else []
        if cells and cells[0] != "Rule":
            yield number, cells


def rules():
    """The rules of docs/RULES.md in their order, each as (number, text with its definitions)."""
    text = read(ROOT / "docs" / "RULES.md")
    items = re.findall(rf"^- \*\*({RULE})\*\* (.*?)(?=\n- |\n\n|\Z)", text, re.M | re.S)
    return [(number, " ".join(body.split())) for number, body in items]


def span(first, last):
    """The numbers from one rule to another of its section."""
    section, low = first.split(".")
    return [f"{section}.{n}" for n in range(int(low), int(last.split(".")[1]) + 1)]


def cited(text):
    """The rules that a text cites, one by one or as `4.4 to 4.6`."""
    numbers = set(re.findall(rf"(?<![\w.$]){RULE}(?![\w.])", text))
    for first, last in re.findall(rf"({RULE}) to ({RULE})", text):
        numbers.update(span(first, last))
    return numbers


def stop(text):
    """Ends with status 2 and what is wrong."""
    print(text, file=sys.stderr)
    sys.exit(2)


def words(usage, least):
    """The words of the command line. Prints the usage where that is asked for, or where there are fewer words than `least`."""
    given = sys.argv[1:]
    if "-h" in given or "--help" in given:
        print(usage.strip())
        sys.exit(0)
    if len(given) < least or any(word.startswith("-") for word in given):
        stop(usage.strip())
    return given


def dependencies():
    """For each crate of crates.txt, in its order, the crates of the repository that it names."""
    listed = {}
    for line in read(ROOT / "crates.txt").split("\n"):
        named, colon, below = line.split("#")[0].partition(":")
        if colon:
            # `staticlib` may stand after the name
            listed[named.split()[0]] = below.split()
    return {name: [d for d in below if d in listed] for name, below in listed.items()}


def see_crate(name):
    """Stops where crates.txt has no such crate."""
    if name not in dependencies():
        stop(f"crates.txt has no crate {name}")


def rt_check(crate, *more, top=ROOT):
    """The lines that `rt check` prints in the crate's folder, and its status. Stops where a crate below it does not build."""
    if not shutil.which("rt"):
        stop("rt, the tool of the Rattle toolchain, is not on the path")
    ran = subprocess.run(["rt", "check", *more], cwd=top / "crates" / crate, stdout=subprocess.PIPE, stderr=subprocess.STDOUT)
    lines = ran.stdout.decode("utf-8", "replace").split("\n")
    for line in lines:
        below = re.match(r"rt: the library (\w+) did not build", line)
        if below:
            stop(f"{crate} stands on {below.group(1)}, which is not proved: prove that first (`rt check` in crates/{below.group(1)})")
    return lines, ran.returncode
