"""What the tests share: places, the table of the refusals, and the start of a program."""

import os
import subprocess
from collections import namedtuple
from pathlib import Path

ROOT = Path(__file__).resolve().parents[2]

# A directory for what a test builds; it has the static library as libexport.a.
WORK = Path(os.environ["WORK"])

Refusal = namedtuple("Refusal", "number name text")


def refusals(page="docs/SPECIFICATION.md", title="Refused"):
    """The rows of the table in a section of a page."""
    text = (ROOT / page).read_text(encoding="utf-8")
    section = text.split(f"\n## {title}\n", 1)[1].split("\n## ", 1)[0]
    lines = [line for line in section.splitlines() if line.startswith("|")]
    head, _, *rows = [[cell.strip() for cell in line.split("|")] for line in lines]
    number, name, when = map(head.index, ("No.", "Name", "When"))
    return [Refusal(int(row[number]), row[name], row[when]) for row in rows]


def camel(name):
    """The name of a refusal in Rust and Python."""
    return name.title().replace(" ", "")


def run(*command, stderr=subprocess.PIPE, **more):
    """A finished program with its status, its output and its errors as text."""
    pipe = subprocess.PIPE
    return subprocess.run(command, cwd=ROOT, text=True, stdout=pipe, stderr=stderr, **more)


def built(*command):
    """Builds a program as WORK / "program" and gives its path."""
    program = WORK / "program"
    subprocess.run([*command, "-o", program], cwd=ROOT, check=True)
    return program


def built_rust(source):
    flags = ["-O", "--edition", "2021", "-D", "warnings", "-L", WORK, "-l", "static=export"]
    return built("rustc", *flags, source)
