#!/usr/bin/env python3
"""Turns proofs that walk a function's goals by hand (Proof.antt with tie.close) to Invariants.antt and Answers.antt.

usage: python3 tools/port/convert.py CRATE..      (at the top of the repository; the crates below CRATE prove)

rt check --generated FOLDER --old-names says of each function which goal has which name now. A goal that was answered by the search
alone gets no answer; one that names lemmas keeps them; of a term over the walk's facts its lemma is kept and the rest is left to the
search, and the term is printed, for a new one by hand where the search does not find it.
"""
import glob
import json
import os
import re
import subprocess
import sys
import tempfile

WORD = re.compile(r'[^\s(){}.;,@"«»]+')


def norm(n):
    return n.replace("_", "-").replace("overflow-", "").replace("nonzero-", "")


def names_of(crate):
    with tempfile.TemporaryDirectory() as top:
        folder = os.path.join(top, "names")
        r = subprocess.run(["rt", "check", "--generated", folder, "--old-names"], cwd=f"crates/{crate}", stdout=subprocess.PIPE, stderr=subprocess.STDOUT, text=True)
        p = os.path.join(folder, "names.json")
        if not os.path.isfile(p):
            print(r.stdout[-1500:])
            raise SystemExit(f"convert: {crate}: no names")
        with open(p) as f:
            return json.load(f)


def definitions(text):
    """name, type, body lines of each definition, in order"""
    out = []
    for block in re.split(r"\n\s*\n", text):
        m = re.match(r"^(?:--[^\n]*\n)*(?:abbrev )?(?:pub )?(\S+) :\s*(.*?)\n((?:unfolding [^\n]*\n)?)(?:abbrev )?\1\b(.*)$", block.strip("\n") + "\n", re.S)
        if m:
            out.append((m.group(1), m.group(2).strip(), m.group(3), m.group(4)))
    return out


def split_body(rest):
    m = re.match(r"^((?: \S+)*?) =\s(.*)$", rest.rstrip("\n"), re.S)
    return (m.group(1).split(), m.group(2).strip()) if m else (None, None)


def carried(body, lts):
    """a term over the walk's facts, each under its step's name of today"""
    steps = {}
    for _, _, pair, *_ in lts["places"]:
        steps.setdefault(pair[0].replace("_", "-"), pair[1])
    slices = {k.replace("_", "-"): v for typed in lts["typed"] for v, k in typed}
    body = re.sub(r"\bc(?:\.before)*\.((?:shared-|mut-)?slice-known[\w-]*)\.given", lambda m: f"c.type_inv.{slices.get(m.group(1), m.group(1))}", body)
    return re.sub(r"\b(c|[a-z]\w*(?=\.before))(?:\.before)*\.([\w-]+)", lambda m: f"{m.group(1)}.{steps.get(m.group(2).replace('_', '-'), m.group(2))}", body)


def convert(crate, key, path, lts, left):
    with open(path, encoding="utf-8") as f:
        text = f.read()
    folder = os.path.dirname(path)
    head = []
    comment = []
    for line in text.split("\n"):
        if line.startswith("use ") and ".Statement." not in line and not line.endswith(".Tie as tie"):
            head.append(line)
        elif line.startswith("--") and not head:
            comment.append(line)
    needs = lts["needs"]
    by = {}
    for old, new in needs:
        by.setdefault(norm(old), new)
    answers, invariants, lemmas = [], [], []
    order = []
    for name, typ, unf, rest in definitions(text):
        if typ.startswith("{M : Type"):
            continue
        m = re.match(r"^tie\.(\S+)", typ)
        if not m:
            lemmas.append(f"{name} : {typ}\n{unf}{name}{rest}".rstrip("\n"))
            continue
        goal = m.group(1)
        args, body = split_body(rest)
        if goal.startswith(("invariant-", "decreases-", "measure-")):
            what, which = goal.split("-", 1)
            loops = lts["loops"]
            hit = [(k, l) for k, l in enumerate(loops) if l[0][0] == which]
            if len(hit) != 1:
                left.append(f"{path}: {goal}: loops {loops}: {args} = {body}")
                continue
            k, (pair, vs) = hit[0]
            changed = lts["changed"][k]
            want = [f"l.initial.{v}" if ch else f"l.{v}" for v, ch in zip(vs, changed)] + [f"l.{v}" for v, ch in zip(vs, changed) if ch]
            if len(want) != len(args):
                left.append(f"{path}: {goal}: {vs} {changed}: {args} = {body}")
                continue
            if body == "Unit":
                continue
            sub = dict(zip(args, want))
            new = WORD.sub(lambda w: sub.get(w.group(0), w.group(0)), body)
            invariants.append(f"abbrev pub {what}-{pair[1]} : goal.{what}-{pair[1]}\n{what}-{pair[1]} l = {new}")
            continue
        order.append((name, goal, unf, args, body))
    goals = [g for _, g, *_ in order if g.startswith("Need-")]
    same = len(goals) == len(needs)
    for at, (name, goal, unf, args, body) in enumerate(order):
        old = goal[5:]
        new = by.get(norm(old))
        if new is None and same:
            new = needs[at][1]
        if new is None:
            left.append(f"{path}: {goal}: no goal of that name; had: {body}")
            continue
        if body == "search rules" and not unf:
            continue
        if new.startswith("shape_of-"):
            # that a lent slice keeps its length is known today
            continue
        if body is None:
            left.append(f"{path}: {new} (was {old}): no body")
            continue
        if re.search(r"\bc\b", body):
            left.append(f"{path}: {new} (was {old}): {' '.join(args or [])} = {body}")
            lead = re.match(r"^\(?([^\s().,]+) ", body)
            if lead and lead.group(1) not in ("let", "search", "omega", "record", "elim", "rw"):
                sets = [w for w in re.findall(r"\w+_exits|\w+-exits", text.split("tie.Need-", 1)[-1])]
                body = f"search ({', '.join(dict.fromkeys([lead.group(1), *sets, 'rules']))})"
            else:
                body = carried(body, lts)
        answers.append(f"pub {new} : goal.{new}\n{unf}{new} c = {body}")
    dotted = ".".join(os.path.relpath(folder, f"crates/{crate}/proofs").split("/"))

    def used(bodies):
        words = set(WORD.findall(" ".join(bodies)))
        out = []
        for line in head:
            m = re.match(r"^use (\S+)\.\{(.*)\}$", line)
            if not m:
                out.append(line)
                continue
            keep = []
            for item in m.group(2).split(", "):
                n = item.split(" as ")[-1]
                if n in words or ("◌" in n and any(x in words for x in re.split("◌", n) if x)):
                    keep.append(item)
            if keep:
                out.append(f"use {m.group(1)}.{{{', '.join(keep)}}}")
        return out

    os.remove(path)
    note = "\n".join(comment) + "\n" if comment else ""
    if answers or lemmas:
        t = note + "\n".join(used(answers + lemmas)) + f"\nuse Rattle.{crate}.proofs.{dotted}.Goals as goal\n\n" + "\n\n".join(lemmas + answers) + "\n"
        with open(f"{folder}/Answers.antt", "w", encoding="utf-8") as f:
            f.write(t)
    if invariants:
        t = (note if not answers else "") + "\n".join(used(invariants)) + f"\nuse Rattle.{crate}.proofs.{dotted}.Given as goal\n\n" + "\n\n".join(invariants) + "\n"
        with open(f"{folder}/Invariants.antt", "w", encoding="utf-8") as f:
            f.write(t)
    if not os.listdir(folder):
        os.rmdir(folder)


def auto(crate):
    for root in ("lib.rt", "main.rt"):
        p = f"crates/{crate}/src/{root}"
        if os.path.isfile(p):
            with open(p, encoding="utf-8") as f:
                t = f.read()
            if "#![tactic(" not in t:
                lines = t.split("\n")
                at = 0
                while at < len(lines) and (lines[at].startswith("//") or not lines[at].strip()):
                    at += 1
                lines[at:at] = ["#![tactic(auto)]", ""]
                with open(p, "w", encoding="utf-8") as f:
                    f.write("\n".join(lines))


def main(crates):
    for crate in crates:
        paths = sorted(glob.glob(f"crates/{crate}/proofs/**/Proof.antt", recursive=True))
        left = []
        if paths:
            data = names_of(crate)
            for path in paths:
                dotted = ".".join(os.path.relpath(os.path.dirname(path), f"crates/{crate}/proofs").split("/"))
                key = f"Rattle-{crate}-proofs.{dotted}.Lts"
                if key not in data:
                    left.append(f"{path}: no names for {key}")
                    continue
                convert(crate, key, path, data[key], left)
        auto(crate)
        subprocess.run(["rt", "fmt"], cwd=f"crates/{crate}", stdout=subprocess.DEVNULL)
        print(f"convert: {crate}: {len(paths)} proofs, {len(left)} places to look at")
        for l in left:
            print("  " + l)


main(sys.argv[1:])
