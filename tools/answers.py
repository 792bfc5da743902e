#!/usr/bin/env python3
"""Turns the Proof.antt files of a crate, as the kit's port.py left them, to Invariants.antt and Answers.antt.

Usage: python3 tools/answers.py CRATE NAMES.json LOG, at the top of the repository. NAMES.json is what `rt check --generated DIR --old-names` wrote of
the crate, LOG what a check with no proof files said: what it proved needs none. Each proof is read from the commit in docs/PORT.md's second line and written below crates/CRATE/proofs; Proof.antt goes. A goal that was answered
by a bare tactic gets no answer: the check tries those itself. What the script can't follow is left with a word in double question marks.
"""
import json
import pathlib
import re
import subprocess
import sys

ROOT = pathlib.Path.cwd()
BARE = re.compile(r"(search rules|omega arith|refl|tt)$")
NAME = r"[^\s(){}\[\].,;\"«»]+"


# Steps that respell.py took for fields of the repository's own.
RENAMED = {"take_back_linked": "take_back", "take_last_linked": "take_last", "join_both_even": "join_both", "join_left_linked": "join_left",
           "join_right_odd": "join_right", "back_of_run": "back_of", "front_of_run": "front_of", "sound_tests": "sound_test"}


def plain(name):
    return name.replace("-", "_").replace("overflow_", "").replace("slice_bounds_", "part_")


def git(*words):
    return subprocess.run(["git", *words], capture_output=True, text=True, check=True).stdout


def blocks(text):
    """The uses of a file, and its declarations: lines that begin in the first column, with the comments above them."""
    uses, out, comment = [], [], []
    for line in text.split("\n"):
        if line.startswith("use ") or line.startswith("pub use "):
            uses.append(line)
        elif line.startswith("--"):
            if not line.endswith("meets its contract. Assumes nothing."):
                comment.append(line)
        elif line and not line[0].isspace() and line[0] != ")":
            out.append([comment, [line]])
            comment = []
        elif out:
            out[-1][1].append(line)
    merged = []
    for comment, lines in out:
        head = re.match(rf"(?:abbrev |unfoldable |pub )*({NAME})", lines[0])[1]
        if merged and (head == merged[-1][0] or lines[0].startswith("unfolding ")):
            merged[-1][2].extend(lines)
        else:
            merged.append((head, comment, list(lines)))
    return uses, merged


class Function:
    def __init__(self, crate, path, facts):
        self.crate, self.path, self.facts = crate, path, facts
        self.needs = {plain(old): new for old, new in facts["needs"]}
        self.asked = {new: at[1] for (old, new), at in zip(facts["needs"], facts["asked_at"])}
        self.places = {p[0]: p for p in facts["places"]}
        self.new_place = dict(zip([p[0] for p in facts["places"]], facts["places_by_name"]))
        self.old_place = {n: o for o, n in self.new_place.items()}
        self.helpers = {}
        self.clauses = {p[0]: c for p, c in zip(facts["places"], facts["clauses"])}

    def follow(self, words, place, goal):
        """A path from the record at a place: words after `c`."""
        at = place
        words = list(words)
        while words and words[0] == "before":
            words.pop(0)
            at = self.places[at][1] if at and at in self.places else None
        # steps that the older check named and today's does not, or the other way round
        if not words:
            if at is None:
                return "??before??"
            return f"(goal.at.{goal} c).{self.new_place[at]}" if goal else f"c.{self.new_place[at]}"
        head, rest = words[0], words[1:]
        head = RENAMED.get(head, head.removesuffix("_lem"))
        if head in ("args", "requires"):
            pre = self.facts.get("pre")
            if head == "requires" and pre and rest and rest[0].isdigit() and len(pre.get("fields", [])) > 1:
                rest = [pre["fields"][int(rest[0])]] + rest[1:]
            return ".".join(["c", head] + rest)
        found = None
        walk = at
        while walk and not found:
            if plain(self.places[walk][2][0]) == plain(head):
                found = walk
            walk = self.places[walk][1]
        if not found:
            for p in self.places.values():
                if plain(p[2][0]) == plain(head):
                    found = p[0]
        if not found:
            return ".".join(["c", "??" + head + "??"] + rest)
        clause = self.clauses.get(found)
        if rest and rest[0] == "ensures" and clause:
            fields = clause["fields"]
            if len(rest) > 1 and rest[1].isdigit() and len(fields) > 1:
                rest = ["ensures", fields[int(rest[1])]] + rest[2:]
            elif len(fields) == 1 and not (len(rest) > 1 and rest[1] == fields[0]):
                rest = ["ensures", fields[0]] + rest[1:]
        return ".".join(["c", self.places[found][2][1]] + rest)

    def body(self, text, place, goal):
        for helper, at in self.helpers.items():
            if goal:
                text = re.sub(rf"(?<![\w.'-]){re.escape(helper)} (\(c(\.before)*\)|c(\.before)*(?![\w.'-]))", f"{helper} (goal.at.{goal} c).{at}", text)
        def path(m):
            return self.follow(m[0].split(".")[1:], place, goal)
        text = re.sub(rf"(?<![\w.'-])c(?:\.{NAME})+", path, text)
        # what a match tells of the value matched
        arm = re.search(r"-in-(\w+)$", goal or "")
        if arm:
            text = re.sub(r"c\.[\w?-]+\.given\.1", f"c.in-{arm[1]}.is", text)
        # the test of `!x` says today what the test of x says
        text = re.sub(rf"not-(true|false) c\.{NAME}\.result (c\.{NAME}\.\1)\b".replace(NAME, r"[^\s().]+"), r"\2", text)
        return text


def convert(crate, path, facts, text):
    f = Function(crate, path, facts)
    uses, decls = blocks(text)
    stem = f"Rattle.{crate}.proofs.{path.replace('/', '.')}"
    keep = [u for u in uses if ".Statement." not in u and not u.endswith(".Tie as tie")]
    invariants, answers, imports = [], [], []
    for head, comment, lines in decls:
        joined = "\n".join(lines).rstrip()
        if re.match(r"(pub )?\S+[-_]spec\b.*statement", lines[0]):
            continue
        sig = re.match(rf"(?:abbrev |unfoldable |pub )*({NAME})\s*:\s*tie\.({NAME})(.*)", lines[0])
        if sig and re.match(r"(invariant|decreases)-", sig[2]):
            kind, loop = sig[2].split("-", 1)
            new = dict((plain(o), n) for (o, n), _ in facts["loops"])
            which = [i for i, ((o, n), _) in enumerate(facts["loops"]) if plain(o) == plain(loop)]
            clause = "\n".join(l for l in lines[1:] if not l.startswith("unfolding "))
            m = re.match(rf"{re.escape(head)}((?:\s+[^\s=]+)*)\s*=\s*(.*)", clause, re.S)
            if not which or not m:
                invariants.append(f"-- ??{joined}??")
                continue
            i = which[0]
            (_, name), vars_ = facts["loops"][i]
            changed = facts["changed"][i]
            params = m[1].split()
            to = {}
            starts, now = params[: len(vars_)], params[len(vars_):]
            if len(starts) != len(vars_) or len(now) != sum(changed):
                invariants.append(f"-- ??parameters: {vars_} {changed}\n-- " + joined.replace("\n", "\n-- "))
                continue
            for v, p, ch in zip(vars_, starts, changed):
                to[p] = f"l.initial.{v}" if ch else f"l.{v}"
            for v, p in zip([v for v, ch in zip(vars_, changed) if ch], now):
                to[p] = f"l.{v}"
            body = re.sub(rf"(?<!\.){NAME}", lambda w: to.get(w[0], w[0]), m[2].strip())
            invariants.append("\n".join(comment + [f"abbrev pub {kind}-{name} : goal.{kind}-{name}", f"{kind}-{name} l = {body}"]))
            continue
        if sig and sig[2].startswith("Need-"):
            old = plain(sig[2][len("Need-"):])
            new = f.needs.get(old)
            rest = lines[1:]
            unfolding = [l for l in rest if l.startswith("unfolding ")]
            clause = "\n".join(l for l in rest if not l.startswith("unfolding ")).rstrip()
            m = re.match(rf"{re.escape(head)}\s+c(?:\s+κs)?\s*=\s*(.*)", clause, re.S)
            if m and BARE.match(m[1].strip()) and not unfolding:
                continue
            if not new or not m:
                answers.append(f"-- ??{old}??\n-- " + joined.replace("\n", "\n-- "))
                continue
            place = f.old_place.get(f.asked[new])
            answers.append("\n".join(comment + [f"pub {new} : goal.{new}"] + unfolding + [f"{new} c = {f.body(m[1].strip(), place, new)}"]))
            continue
        m = re.match(rf"(?:abbrev |unfoldable |pub )*({NAME})\s*:\s*\(c : tie\.({NAME})[^()]*\)", lines[0])
        if m:
            place = next((p for p in f.places if plain(p) == plain(m[2])), None)
            new = f.new_place.get(place, "??" + m[2])
            imports.append(new)
            sigline = re.sub(rf"tie\.{re.escape(m[2])}[^()]*\)", new + ")", lines[0])
            f.helpers[m[1]] = new
            answers.append("\n".join(comment) + ("\n" if comment else "") + f.body("\n".join([sigline] + lines[1:]).rstrip(), place, None))
            continue
        answers.append("\n".join(comment + [joined]))
    out = {}
    if invariants:
        out["Invariants.antt"] = "\n".join(keep + [f"use {stem}.Given as goal", ""]) + "\n" + "\n\n".join(invariants) + "\n"
    if answers:
        extra = [f"use {stem}.Goals.{{{', '.join(dict.fromkeys(imports))}}}"] if imports else []
        out["Answers.antt"] = "\n".join(keep + [f"use {stem}.Goals as goal"] + extra + [""]) + "\n" + "\n\n".join(answers) + "\n"
    return out


def main():
    crate, names = sys.argv[1], json.loads(pathlib.Path(sys.argv[2]).read_text())
    commit = pathlib.Path("docs/PORT.md").read_text().split("\n")[1]
    listed = git("ls-tree", "-r", "--name-only", commit, f"crates/{crate}/proofs").split("\n")
    log = pathlib.Path(sys.argv[3]).read_text()
    proved = {m.replace("::", "/") for m in re.findall(rf"^fn {crate}::(\S+): proved", log, re.M)}
    for file in listed:
        if not file.endswith("/Proof.antt"):
            continue
        path = file[len(f"crates/{crate}/proofs/"):-len("/Proof.antt")]
        key = f"Rattle-{crate}-proofs.{path.replace('/', '.')}.Lts"
        folder = pathlib.Path(f"crates/{crate}/proofs/{path}")
        if path.replace("/+", "/").removeprefix("+") in proved:
            (folder / "Proof.antt").unlink(missing_ok=True)
            if folder.is_dir() and not any(folder.iterdir()):
                folder.rmdir()
            continue
        facts = names.get(key)
        if facts is None:
            print(f"left: {path}: no names of it")
            continue
        made = convert(crate, path, facts, git("show", f"{commit}:{file}"))
        folder.mkdir(parents=True, exist_ok=True)
        (folder / "Proof.antt").unlink(missing_ok=True)
        for name, text in made.items():
            (folder / name).write_text(text)
            if "??" in text:
                print(f"look: {path}/{name}")
        if not any(folder.iterdir()):
            folder.rmdir()


main()
