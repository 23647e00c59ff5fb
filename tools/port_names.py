#!/usr/bin/env python3
"""Respells what port.py leaves of this repository's own names: run it once, at the top, after port.py.

    python3 /opt/rattle/port/port.py && python3 tools/port_names.py

- Definitions, fields, lemmas and variables in camel case, in snake case: askOf, ask_of. Types and modules keep theirs.
- Definitions of specs/ with a dash, with an underscore: ip-fits, ip_fits. A dash in a lemma's name joins two names, and stays.
- The crates md5 and sha1, whose names the kit has for libraries of its own: md5_hash, sha1_hash.
- The must-fail edits with all that, and those whose text port.py turned (docs/port-edits.json has their lines as port.py writes them).
- #![tactic(auto)] at the head of each root file.
- README.md and docs/ with the definitions' new names.
Strings, functions of src/, exported names, inputs and outputs keep their names. It stops where two names fall together."""
import collections
import json
import pathlib
import re
import subprocess

ROOT = pathlib.Path(__file__).resolve().parent.parent
CRATES = {"md5": "md5_hash", "sha1": "sha1_hash"}
# Local lemmas that would have a definition's new name.
LOCAL = {"inflight_claims/proofs/ListClaim": ("from_one", "given_from_one"), "link_padding/proofs/Before": ("whole_before", "whole_of-before")}
WORD = re.compile(r"\"(?:[^\"\\\n]|\\.)*\"|[^\s(){}.;,@\"«»\[\]\\`]+")
CAMEL = re.compile(r"[a-z][a-z0-9']*[A-Z]")
HEAD = re.compile(r"(?m)^ *(?:(?:abbrev|unfoldable|pub|data|record) )*([^\s:]*-[^\s:]*) (?:\{[^}]*\} )*:")


def snake(word):
    return re.sub(r"(?<=[a-z0-9])(?=[A-Z])", "_", word).lower()


def files(*ends):
    return sorted(p for p in (ROOT / "crates").glob("**/*") if p.suffix in ends and "out" not in p.parts and p.is_file())


def renamings():
    """Every name to its new spelling."""
    found, taken = {}, collections.defaultdict(set)
    for path in files(".antt"):
        text = path.read_text()
        for line in text.splitlines():
            code = line.split("--")[0]
            # A part of a path is no name of its own.
            for word in re.findall(r"(?<![^\s(){},;@\"«»\[\]\\])[^\s(){}.;,@\"«»\[\]\\]+(?![^\s(){},;@\"«»\[\]\\])", code):
                taken[word].add(path)
            for word in WORD.findall(code):
                if not word.startswith('"') and CAMEL.match(word):
                    found[word] = snake(word)
        if "specs" in path.parts:
            found.update((word, snake(word).replace("-", "_")) for word in HEAD.findall(text))
    twice = [new for new, n in collections.Counter(found.values()).items() if n > 1]
    old = [(word, new) for word, new in found.items() if new in taken and taken[new] & taken[word]]
    if twice or old:
        raise SystemExit(f"names fall together: {twice} {old}")
    return found


def respelled(text, names):
    return WORD.sub(lambda it: names.get(it[0], it[0]), text)


def crate_paths(text):
    for old, new in CRATES.items():
        text = re.sub(rf"\bRattle\.{old}\.", f"Rattle.{new}.", text)
        text = re.sub(rf"(?m)^(use |pub use )?{old}::", rf"\g<1>{new}::", text)
        text = re.sub(rf"(?<![\w:]){old}::(?=[a-z_{{])", f"{new}::", text)
    return text


def edits(names):
    turned = json.loads((ROOT / "docs" / "port-edits.json").read_text())
    for path in sorted(ROOT.glob("crates/*/must-fail/*.edit")):
        text = turned.get(str(path.relative_to(ROOT)), path.read_text())
        path.write_text(crate_paths(respelled(text, names)))


def root_file(path):
    text = path.read_text()
    if "#![tactic(" in text:
        return
    lines = text.splitlines(keepends=True)
    at = next((i for i, line in enumerate(lines) if not line.startswith("//")), len(lines))
    gap = "" if at == len(lines) or lines[at].strip() == "" else "\n"
    path.write_text("".join([*lines[:at], "#![tactic(auto)]\n", gap, *lines[at:]]))


def local():
    for file, (old, new) in LOCAL.items():
        path = ROOT / "crates" / f"{file}.antt"
        path.write_text(respelled(path.read_text(), {old: new}))


def main():
    local()
    names = renamings()
    for path in files(".rt", ".antt"):
        path.write_text(crate_paths(respelled(path.read_text(), names)))
    edits(names)
    for path in (ROOT / "crates").glob("*/src/*.rt"):
        if path.name in ("lib.rt", "main.rt"):
            root_file(path)
    listed = (ROOT / "crates.txt").read_text()
    for old, new in CRATES.items():
        listed = re.sub(rf"\b{old}\b", new, listed)
        (ROOT / "crates" / old).rename(ROOT / "crates" / new)
    (ROOT / "crates.txt").write_text(listed)
    for page in [ROOT / "README.md", *(ROOT / "docs").glob("**/*.md")]:
        page.write_text(respelled(page.read_text(), names))
    for crate in sorted((ROOT / "crates").iterdir()):
        subprocess.run(["rt", "fmt"], cwd=crate, capture_output=True)


main()
