#!/usr/bin/env python3
"""Turns the Proof.antt files of crates into Answers.antt and Invariants.antt, by the list of old and new names that rattle writes.

    tools/port_proofs.py CRATE..     run in the crate's repository; the crates below must be proved

What only runs the search is left out, since the check does that itself. Walks by hand stay."""
import json
import pathlib
import re
import subprocess
import sys
import tempfile

ROOT = pathlib.Path(__file__).resolve().parent.parent
DECL = re.compile(r"^(?:(?:abbrev|unfoldable|pub) )*([^\s(){}:]+) :(?= |$)")
IDENT = r"[^\s(){}.;,@\"«»\[\]\\]+"
SEARCH = re.compile(r"\(?λ [^.]*\. search rules\)?$")


def SOURCES(fn):
    where = ROOT / "crates" / fn.split("::")[0] / "src"
    return "\n".join(re.sub(r"//.*", "", p.read_text()) for p in sorted(where.glob("**/*.rt"))) if where.is_dir() else ""


def plain(name):
    return re.sub(r"^Need-", "", name).replace("_", "-").replace("overflow-", "")


def blocks(text):
    """Top-level parts: [kind, name, text]; kind is use, decl, module or comment."""
    out, lines, i = [], text.split("\n"), 0
    while i < len(lines):
        line = lines[i]
        if line.strip() == "":
            i += 1
            continue
        j = i + 1
        if line.startswith("--"):
            while j < len(lines) and lines[j].startswith("--"):
                j += 1
            out.append(["comment", None, "\n".join(lines[i:j])])
        elif line.startswith("use "):
            while j < len(lines) and "{" in line and "}" not in "\n".join(lines[i:j]):
                j += 1
            out.append(["use", None, "\n".join(lines[i:j])])
        elif line.startswith("module ") or line.startswith("pub module"):
            while j < len(lines) and (lines[j].startswith(" ") or lines[j] == ""):
                j += 1
            out.append(["module", None, "\n".join(lines[i:j]).rstrip()])
        else:
            m = DECL.match(line)
            name = m[1] if m else None
            # signature's further lines, `unfolding`, and the clauses
            while j < len(lines):
                l = lines[j]
                if l.startswith(" ") or (l == "" and j + 1 < len(lines) and lines[j + 1].startswith(" ")):
                    j += 1
                elif l.startswith("unfolding ") or l.startswith("mutual"):
                    j += 1
                elif name and (l.startswith(name + " ") or l == name):
                    if DECL.match(l):
                        break
                    j += 1
                elif l == ")" or l.startswith(") ") or l.startswith(")"):
                    j += 1
                else:
                    break
            out.append(["decl", name, "\n".join(lines[i:j]).rstrip()])
        i = j
    return out


def split_args(text):
    """The arguments of `(tie.spec a b (..) c)`."""
    at = text.index("tie.spec") + len("tie.spec")
    out, depth, cur = [], 0, ""
    for ch in text[at:]:
        if ch == "(":
            depth += 1
        if ch == ")":
            if depth == 0:
                break
            depth -= 1
        if ch.isspace() and depth == 0:
            if cur:
                out.append(cur)
            cur = ""
        else:
            cur += ch
    if cur:
        out.append(cur)
    return out


class File:
    def __init__(self, path, names, module):
        self.path, self.names, self.module = path, names, module
        self.left = []
        steps = {}
        for _, _, (old, new), _, _ in names["places"]:
            if old:
                steps.setdefault(old.replace("_", "-"), new)
        self.steps = steps
        self.needs = names["needs"]

    def on_the_way(self, need):
        """The steps before a goal, nearest first: their old and new names."""
        at = {place[0]: place for place in self.names["places"]}
        place, out = next((it[0] for it, n in zip(self.names["asked_at"], self.needs) if n[1] == need), None), []
        while place in at:
            _, up, (old, new), _, _ = at[place]
            if old:
                out.append((old.replace("_", "-"), new))
            place = up
        return out

    def told(self, step, path):
        """What a match told of its value stands at its arm now."""
        for arm in self.names["arms"]:
            for field, old, below in arm[2] if arm else []:
                if old.replace("_", "-") == step and path[: len(below)] == below and below:
                    return [arm[0], field, *path[len(below) :]]
        return None

    def path_to(self, match):
        parts = [p for p in match[2].split(".")[1:] if p != "before"]
        if parts and parts[0] not in ("args", "ranges"):
            key = parts[0].replace("_", "-")
            told = self.told(key, parts[1:])
            if told:
                return match[1] + "." + ".".join(told)
            names = [old for old, _ in self.way]
            if key in names:
                at = names.index(key)
                parts[0] = self.way[at][1]
            elif key in self.steps:
                parts[0] = self.steps[key]
        parts = self.last_values(parts)
        parts = [{"type-inv": "type_inv", "well-formed": "well_formed"}.get(p, p) for p in parts]
        return match[1] + "." + ".".join(parts) if parts else match[1]

    def body(self, text, need=None):
        self.way = self.on_the_way(need) if need else []
        # What a call asks for takes no lifetimes now.
        text = re.sub(r"(?m)^(\S+-requires(?:-\d+)?) c κs =", r"\1 c =", text)
        # A name for an earlier place is a name for c.
        for alias in re.findall(r"let (\w+) = c(?:\.before)+ in", text):
            text = re.sub(rf"let {alias} = c(?:\.before)+ in\s*", "", text)
            text = re.sub(rf"(?<![\w'.-]){alias}(?=\.)", "c", text)
        text = re.sub(rf"(?<![\w'.-])(c)((?:\.{IDENT})+)", self.path_to, text)
        # A test on a negation tells of what is negated now.
        return re.sub(r"not-(?:true|false) (?:\([^()]*\)|[^\s()]+) (c\.if-not-[^\s(),]*)", r"\1", text)

    def last_values(self, parts):
        """c.f.new.0 and c.f.auto.0 name the parameter now, the nth `&mut`."""
        if not parts:
            return parts
        fn = next((of for _, _, (_, new), of, _ in self.names["places"] if new == parts[0] and of), None)
        if not fn or len(parts) < 3 or parts[1] not in ("new", "auto"):
            return parts
        path, n = parts[2:], 0
        while len(path) > 1 and path[0] == "1" and path[1] in "01":
            path, n = path[1:], n + 1
        if path[0] != "0":
            return parts
        held = re.search(rf"fn {fn.split('::')[-1]}(?:<[^(]*>)?\s*\((.*?)\)\s*(?:->|where|requires|ensures|\{{)", SOURCES(fn), re.S)
        lent = [it.split(":")[0].strip() for it in held[1].split(",") if "&mut" in it or ("&" in it and parts[1] == "auto")] if held else []
        return parts[:2] + [lent[n]] + path[1:] if n < len(lent) else parts

    def binders(self, text, name, at):
        """An invariant's clause over a record of variables."""
        m = re.search(rf"(?m)^{re.escape(name)} ([^=]*?) *=(?= |$)", text)
        if not m:
            return text
        words = m[1].split()
        vs, changed = self.names["loops"][at][1], self.names["changed"][at]
        to = [f"l.initial.{v}" if c else f"l.{v}" for v, c in zip(vs, changed)] + [f"l.{v}" for v, c in zip(vs, changed) if c]
        if len(to) != len(words):
            self.left.append(f"{name}: binders {words}, variables {to}")
            to = [f"l.initial.{w[:-1]}" if w.endswith("₀") else f"l.{w}" for w in words]
        by = dict(zip(words, to))
        tail = re.sub(rf"(?<![^\s(){{}};,\[\]])({IDENT})(?![^\s(){{}}.;,\[\]])", lambda it: by.get(it[1], it[1]), text[m.end() :])
        return text[: m.start()] + f"{name} l =" + tail

    def run(self):
        text = self.path.read_text()
        if "tie.close" not in text:
            return False
        parts = blocks(text)
        spec = next(b for b in parts if b[0] == "decl" and "tie.close" in b[2])
        args = split_args(spec[2])
        by_name = {b[1]: b for b in parts if b[0] == "decl"}
        inv = [a for a in args if a in by_name and re.search(r": tie\.(invariant|decreases|measure|ghost)", by_name[a][2].split("\n")[0])]
        goals = [a for a in args if a not in inv]
        new_of = {}
        if len(goals) == len(self.needs):
            for a, (old, new) in zip(goals, self.needs):
                new_of[a] = new
        olds = {plain(o): n for o, n in self.needs}
        uses, answers, comments, invariants, pending = [], [], [], [], []
        helpers = []
        for kind, name, t in parts:
            if kind == "use":
                if ".Statement.{statement}" in t or ".Tie as tie" in t:
                    continue
                uses.append(t)
            elif kind == "comment":
                pending.append(t)
            elif kind == "module":
                answers += pending + [self.body(t)]
                pending = []
            elif name == spec[1]:
                pending = []
            elif name in inv:
                loop, at = self.loop_of(name, t)
                t = self.binders(t, name, at)
                t = re.sub(r"tie\.(invariant|decreases)-?\S*", f"goal.{loop}", t, count=1)
                t = re.sub(rf"(?m)^((?:abbrev |pub )*){re.escape(name)} :", f"abbrev pub {loop} :", t)
                t = re.sub(rf"(?m)^{re.escape(name)} ", f"{loop} ", t)
                invariants += pending + [t]
                pending = []
            elif re.search(r"tie\.Need-", t):
                need = re.search(r"tie\.Need-(\S+)", t)[1]
                new = new_of.get(name) or olds.get(plain(need))
                if not new:
                    self.left.append(f"{name} ({need})")
                    new = name
                if re.search(r"= search rules$", t) and "unfolding" not in t:
                    pending = []
                    continue
                t = re.sub(r"tie\.Need-\S+( invariant-\S+| decreases-\S+)*", f"goal.{new}", t, count=1)
                t = re.sub(rf"(?m)^{re.escape(name)} :", f"pub {new} :", t)
                t = re.sub(rf"(?m)^pub {re.escape(name)} :", f"pub {new} :", t)
                t = re.sub(rf"(?m)^{re.escape(name)} ", f"{new} ", t)
                answers += pending + [self.body(t, new)]
                pending = []
            else:
                answers += pending + [self.body(t)]
                helpers.append((name, self.body(t)))
                pending = []
        for a in goals:
            if a.startswith("(") and not SEARCH.match(a):
                new = new_of.get(a)
                m = re.match(r"\(λ ([^.]*)\. (.*)\)$", a, re.S)
                if new and m:
                    answers.append(f"pub {new} : goal.{new}\n{new} {m[1]} = {self.body(m[2], new)}")
                else:
                    self.left.append(a[:80])
        if len(goals) != len(self.needs):
            self.left.append(f"{len(goals)} goals before, {len(self.needs)} now")
        moved, grew = [], bool(invariants)
        while grew:
            grew = False
            for h in [h for h in helpers if h not in moved]:
                if any(self.cited(h[0], t) for t in invariants) or any(self.cited(h[0], m[1]) for m in moved):
                    moved.append(h)
                    grew = True
        for name, t in [h for h in helpers if h in moved]:
            answers.remove(t)
            pub = t if re.match(r"(abbrev |unfoldable )?pub ", t) else re.sub(r"^(abbrev |unfoldable )?", r"\1pub ", t, count=1)
            invariants.insert(0, pub)
        if moved:
            uses.append(f"use {self.module}.Invariants.{{{', '.join(h[0] for h in moved)}}}")
        self.write("Answers", uses, answers, parts)
        self.write("Invariants", [u for u in uses if ".Invariants.{" not in u], invariants, parts)
        self.path.unlink()
        return True

    def loop_of(self, name, t):
        """The new name of an invariant or a measure, and its loop's place in the list."""
        kind, old = re.search(r": tie\.(invariant|decreases)-?(\S*)", t).groups()
        for at, (loop, _) in enumerate(self.names["loops"]):
            if plain(loop[0]) == plain(old):
                return f"{kind}-{loop[1]}", at
        self.left.append(f"loop {name}: {self.names['loops']}")
        return name, 0

    def write(self, file, uses, items, parts):
        items = [i for i in items]
        if not any(not i.startswith("--") for i in items):
            return
        body = "\n\n".join(items)
        keep = []
        for u in uses:
            m = re.match(r"use (\S+?)\.\{(.*)\}$", u.replace("\n", " "), re.S)
            if not m:
                keep.append(u)
                continue
            words = [w.strip() for w in m[2].split(",") if w.strip()]
            used = [w for w in words if self.cited(w, body)]
            if used:
                keep.append(f"use {m[1]}.{{{', '.join(used)}}}")
        first = parts[0][2] if parts[0][0] == "comment" else ""
        keep.append(f"use {self.module}.{'Goals' if file == 'Answers' else 'Given'} as goal")
        text = (first + "\n" if first and file == "Answers" else "") + "\n".join(keep) + "\n\n" + body + "\n"
        if first and file == "Answers" and items and items[0] == first:
            text = first + "\n" + "\n".join(keep) + "\n\n" + "\n\n".join(items[1:]) + "\n"
        (self.path.parent / f"{file}.antt").write_text(text)

    @staticmethod
    def cited(word, body):
        word = word.split(" as ")[-1]
        if "◌" in word:
            symbol = word.replace("◌", "")
            return symbol in body
        return re.search(rf"(?<![^\s(){{}}.;,@\[\]]){re.escape(word)}(?![^\s(){{}}.;,@\[\]])", body) is not None


def convert(crate):
    where = ROOT / "crates" / crate
    with tempfile.TemporaryDirectory() as d:
        said = subprocess.run(["rt", "check", "--generated", d + "/n", "--old-names"], cwd=where, capture_output=True, text=True)
        file = pathlib.Path(d) / "n" / "names.json"
        if not file.exists():
            print(said.stdout[-3000:], said.stderr[-2000:])
            return False
        names = json.loads(file.read_text())
    by_path = {}
    for module, of in names.items():
        if ".Lts" in module:
            by_path[module.split(".", 1)[1].rsplit(".Lts", 1)[0].replace("-", "_")] = (module, of)
    for path in sorted((where / "proofs").glob("**/Proof.antt")):
        rel = str(path.parent.relative_to(where / "proofs")).replace("/", ".")
        hit = by_path.get(rel.replace("-", "_"))
        if not hit:
            print(f"{crate}: no names for {rel}")
            continue
        f = File(path, hit[1], f"Rattle.{crate}.proofs.{rel}")
        try:
            if not f.run():
                print(f"{crate}: by hand: {rel}")
        except Exception as e:  # a form that this does not know: left as it is
            print(f"{crate}: {rel}: {e!r}")
        for l in f.left:
            print(f"{crate}: {rel}: left {l}")
    return True


if __name__ == "__main__":
    for crate in sys.argv[1:]:
        convert(crate)
