#!/usr/bin/env python3
"""Checks that the documents say what is so.

- A fenced block that begins with a line `$ COMMAND` shows what commands write: each such line is run at the top of the
  repository, and the lines up to the next one have to be its output. A line `...` stands for any lines.
- A fenced block that names a file after its language shows a part of that file, and a line `...` leaves lines out.
- A link to a file of the repository, and to a heading, has to lead somewhere; so does a path in backquotes that begins with a
  folder of the repository, or with a crate and a folder of it.
- In the table of crates each crate stands on what crates.txt says.
- A name in backquotes in a page about code, definitions or proofs has to stand in one of these, so none outlives what it names.
- Each file in examples/ is named by some document.
- What other scripts make is what they make now: the pictures, the index of contracts, and the marks of definitions.

A command with `bin/crgc` is run on that program, or on the one that `rt ci` leaves in crates/crgc_main/out; where there is
neither, it is skipped, and so is a command whose tool is missing. With --renew, output that differs and what other scripts make are
made anew; such a change is to be read before it is committed.

The last line is 'N passed, M failed', and the status is 1 where something failed.
"""
import glob
import os
import re
import shutil
import subprocess
import sys

PROGRAM = "bin/crgc"
LEFT_BY_GATE = "crates/crgc_main/out/crgc_main"
FOLDERS = ("crates/", "docs/", "examples/", "scripts/", ".ci/")
PATH = re.compile(r"`((?:crates|docs|examples|scripts|\.ci)/[^`\s*<>{}]*)`")
PATH_IN_CRATE = re.compile(r"`(\w+/(?:src|specs|proofs|must-fail)/[\w/]+\.\w+)`")
LINK = re.compile(r"\]\(([^)\s]+)\)")
MADE_BY_SCRIPTS = ("scripts/draw-pictures", "scripts/list-contracts", "scripts/mark-definitions")
ABOUT_NAMES = ("docs/ARCHITECTURE.md", "docs/CLAIM.md", "docs/DEFINITIONS.md", "docs/PROOF.md")
PARTS_OF_NAMES = ("Is", "Are")
CRATES = "docs/ARCHITECTURE.md"
ANY_LINES = "..."


def documents():
    return sorted(glob.glob("*.md")) + sorted(glob.glob("docs/*.md")) + sorted(glob.glob("crates/*/README.md"))


def read_lines(name):
    with open(name, encoding="utf-8") as handle:
        return handle.read().split("\n")


class Report:
    """What was checked, and what is wrong."""

    def __init__(self):
        self.passed = 0
        self.failed = 0
        self.skipped = {}

    def check(self, good, place, message):
        if good:
            self.passed += 1
        else:
            self.failed += 1
            print(f"{place}: {message}")

    def skip(self, why):
        self.skipped[why] = self.skipped.get(why, 0) + 1

    def end(self):
        for why, count in self.skipped.items():
            print(f"documents: {count} commands are skipped, since {why}")
        print(f"{self.passed} passed, {self.failed} failed")
        return 1 if self.failed else 0


def blocks(lines):
    """The fenced blocks: the number of the first line inside, the words after the fence, and the lines."""
    start = None
    for number, line in enumerate(lines):
        if line.startswith("```"):
            if start is None:
                start, words = number + 1, line[3:].split()
            else:
                yield start, words, lines[start:number]
                start = None


def matches(shown, written):
    """Whether the shown lines are the written ones, where `...` stands for any lines."""
    if ANY_LINES not in shown:
        return shown == written
    place = shown.index(ANY_LINES)
    if shown[:place] != written[:place]:
        return False
    rest = shown[place + 1:]
    return any(matches(rest, written[start:]) for start in range(place, len(written) + 1))


def program():
    for name in (PROGRAM, LEFT_BY_GATE):
        if os.access(name, os.X_OK):
            return name
    return None


def run(command, report):
    """The lines that a command writes, or None where it cannot be run here."""
    if PROGRAM in command:
        name = program()
        if name is None:
            report.skip(f"{PROGRAM} is missing (./build.sh makes it)")
            return None
        command = command.replace(PROGRAM, name)
    for device in re.findall(r"/dev/\w+", command):
        if not os.path.exists(device):
            report.skip(f"{device} is missing")
            return None
    tool = command.split()[0]
    if "/" not in tool and shutil.which(tool) is None and subprocess.run(["bash", "-c", f"type {tool}"], capture_output=True).returncode:
        report.skip(f"{tool} is missing")
        return None
    try:
        done = subprocess.run(["bash", "-c", command], stdout=subprocess.PIPE, stderr=subprocess.STDOUT, stdin=subprocess.DEVNULL, timeout=60)
    except subprocess.TimeoutExpired:
        return ["(no end after 60 seconds)"]
    lines = done.stdout.decode("utf-8", "replace").split("\n")
    return lines[:-1] if lines[-1] == "" else lines


def check_commands(name, start, shown, report):
    """Runs the commands of a block. Gives the block with what they write."""
    renewed = []
    number = 0
    while number < len(shown):
        command = shown[number][2:]
        end = number + 1
        while end < len(shown) and not shown[end].startswith("$ "):
            end += 1
        output = shown[number + 1:end]
        written = run(command, report)
        good = written is None or matches(output, written)
        if written is not None:
            report.check(good, f"{name}:{start + number + 1}", f"`{command}` writes\n" + "\n".join(written or ["(nothing)"]))
        renewed += [shown[number]] + (output if good else written)
        number = end
    return renewed


def check_quote(name, start, quoted, shown, report):
    place = f"{name}:{start + 1}"
    if not os.path.isfile(quoted):
        report.check(False, place, f"there is no file {quoted}")
        return
    text = read_lines(quoted)
    place_in_file = 0
    part = []
    good = True
    for line in shown + [ANY_LINES]:
        if line.strip() != ANY_LINES:
            part.append(line)
            continue
        found = next((n for n in range(place_in_file, len(text) - len(part) + 1) if text[n:n + len(part)] == part), None)
        if found is None:
            good = False
            break
        place_in_file = found + len(part)
        part = []
    report.check(good, place, f"{quoted} has no such part" + (": " + part[0] if part else ""))


def heading_names(name):
    names = set()
    for line in read_lines(name):
        if line.startswith("#"):
            title = line.lstrip("#").strip().lower()
            names.add(re.sub(r"[^\w\- ]", "", title).replace(" ", "-"))
    return names


def check_links(name, lines, report):
    for number, line in enumerate(lines, 1):
        for target in LINK.findall(line):
            if "://" in target:
                continue
            path, _, heading = target.partition("#")
            path = os.path.normpath(os.path.join(os.path.dirname(name), path)) if path else name
            good = os.path.exists(path) and (not heading or heading in heading_names(path))
            report.check(good, f"{name}:{number}", f"the link {target} leads nowhere")
        for path in PATH.findall(line):
            good = os.path.exists(path) or any(os.path.exists(path.split(mark)[0]) for mark in (" ", "::") if mark in path)
            report.check(good, f"{name}:{number}", f"there is no {path}")
        for path in PATH_IN_CRATE.findall(line):
            report.check(os.path.exists("crates/" + path), f"{name}:{number}", f"there is no crates/{path}")


def known_names():
    """Every name in the code, the definitions and the proofs, with the names of their files and of the crates."""
    names = set(os.listdir("crates"))
    for pattern in ("crates/*/src/**/*.rt", "crates/*/specs/**/*.antt", "crates/*/proofs/**/*.antt"):
        for path in glob.glob(pattern, recursive=True):
            names.add(os.path.basename(path).rsplit(".", 1)[0])
            with open(path, encoding="utf-8") as handle:
                names.update(re.findall(r"[\w-]+", handle.read()))
    return names


def check_names(name, lines, names, report):
    inside = False
    for number, line in enumerate(lines, 1):
        if line.startswith("```"):
            inside = not inside
        for code in [] if inside else re.findall(r"`([^`]+)`", line):
            word = code.split()[0]
            if re.fullmatch(r"[A-Za-z][\w-]*", word) and word not in PARTS_OF_NAMES:
                report.check(word in names, f"{name}:{number}", f"nothing is named {word}")


def check_crates(report):
    """The table of crates in the page of the architecture, beside crates.txt."""
    uses = {}
    for line in read_lines("crates.txt"):
        crate, _, libraries = line.split("#")[0].partition(":")
        if crate.strip():
            uses[crate.split()[0]] = libraries.split()
    shown = {}
    for line in read_lines(CRATES):
        cells = [cell.strip() for cell in line.split(" | ")]
        found = re.fullmatch(r"\| `(\w+)`", cells[0])
        if found and len(cells) == 4:
            shown[found.group(1)] = re.findall(r"`(\w+)`", cells[3])
    for crate in sorted(uses.keys() | shown.keys()):
        report.check(sorted(uses.get(crate, [])) == sorted(shown.get(crate, ["?"])), CRATES, f"{crate} stands on {' '.join(uses.get(crate, []))}")


def main():
    os.chdir(os.path.join(os.path.dirname(os.path.abspath(sys.argv[0])), ".."))
    renew = "--renew" in sys.argv[1:]
    report = Report()
    all_text = ""
    names = None
    for name in documents():
        lines = read_lines(name)
        all_text += "\n".join(lines)
        shift = 0
        for start, words, shown in list(blocks(lines)):
            if shown and shown[0].startswith("$ "):
                renewed = check_commands(name, start, shown, report)
                if renew:
                    lines[start + shift:start + shift + len(shown)] = renewed
                    shift += len(renewed) - len(shown)
            elif len(words) > 1:
                check_quote(name, start, words[1], shown, report)
        check_links(name, lines, report)
        if name in ABOUT_NAMES or name.startswith("crates/"):
            names = names or known_names()
            check_names(name, lines, names, report)
        if renew:
            with open(name, "w", encoding="utf-8") as handle:
                handle.write("\n".join(lines))
    check_crates(report)
    for example in sorted(glob.glob("examples/*")):
        report.check(example in all_text, example, "no document names it")
    for script in MADE_BY_SCRIPTS:
        made = subprocess.run([script] + ([] if renew else ["--check"]), stdout=subprocess.PIPE, stderr=subprocess.STDOUT)
        report.check(made.returncode == 0, script, made.stdout.decode("utf-8", "replace").strip())
    return report.end()


sys.exit(main())
