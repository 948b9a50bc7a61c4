#!/usr/bin/env python3
"""Spells this repository's own definitions and lemmas as today's Rattle does, once, after the kit's port.py.

usage: tools/respell.py        at the top of the repository

In crates/*/specs, crates/*/proofs, the clauses of crates/*/src and the must-fail edits:
  - a name that the specs or proofs declare and that begins in lower case is spelled in snake case (withBit: with_bit, first-failing:
    first_failing). Where two names would fall together, the table APART gives the second another one.
  - what lies behind a reference is said by the language: `(old x)`, `(new x)` become x.now, x.old or x.new, as the parameter is a & or a
    &mut, and `oldRecord a b c d`, `oldTables full a ..` and their kin become `lent_record` and `lent` of those.
  - a starred clause that joins plain facts becomes one clause for each.
Functions of src/, exported names, strings, inputs and outputs keep their names. It proves nothing."""
import collections
import glob
import os
import re
import sys

sys.dont_write_bytecode = True

# Names that would fall together with another of the same spelling, and words of the language.
APART = {
    "first-of": "first_of_lem",
    "mask_at": "mask_at_lem",
    "count_at": "count_at_lem",
    "under_at": "under_at_lem",
    "level-fits": "level_fits_lem",
    "fit-from": "fit_from_lem",
    "levels-fit": "levels_fit_lem",
    "first-failing": "first_failing_lem",
    "sound-task": "sound_task_lem",
    "empty-row": "empty_row_lem",
    "no_kind": "no_kind_lem",
    "no-task": "no_task_lem",
    "no-cpu": "no_cpu_lem",
    "insert-before": "insert_before_lem",
    "down-to-one": "down_to_one_lem",
    "stored_row": "stored_row_lem",
    "record-fits": "record_fits_lem",
    "task-at": "task_at_lem",
    "lowest-allowed": "lowest_allowed_lem",
    "by-kind": "by_kind_lem",
    "same_tables": "same_tables_lem",
    "one_less": "one_less_lem",
    "isFree": "is_free_place",
    "notIn": "is_not_in",
    "result": "result_of",
}
NAME = r"[^\s(){}.;,@\"«»\[\]`]+"
DECLARED = re.compile(rf"^( *)((?:abbrev |unfoldable |pub )*)({NAME})((?: {NAME})*)((?: \{{[^{{}}\n]*\}})*) :(?!:)")
CONSTRUCTOR = re.compile(rf"^  (?:\| )?({NAME}) : ")
ANSWER = re.compile(r" : (?:tie|at|known|goal)\.")
WORDS = {"record", "data", "module", "let", "in", "λ", "use", "pub", "where", "elim", "--"}


def snake(name):
    name = name.replace("getD", "get_or")
    return re.sub(r"(?<=[a-z0-9])[A-Z]", lambda m: "_" + m[0].lower(), name).replace("-", "_")


def antt_files():
    for kind in ("specs", "proofs"):
        yield from sorted(glob.glob(f"crates/*/{kind}/**/*.antt", recursive=True))


def declared():
    """name -> the kinds of its declarations: top, field, local"""
    names = collections.defaultdict(set)
    for path in antt_files():
        if path.endswith("Paths.antt"):
            continue
        with open(path, encoding="utf-8") as f:
            for line in f:
                m = DECLARED.match(line)
                if not m or line.lstrip().startswith("--") or ANSWER.search(line):
                    continue
                for name in [m[3], *m[4].split()]:
                    if name in WORDS or not name[0].islower():
                        continue
                    kind = "top" if not m[1] else "field" if "pub" in m[2] else "local"
                    names[name].add(kind)
    return names


def table(names):
    to = {}
    for name in names:
        new = APART.get(name, snake(name))
        if new != name:
            to[name] = new
    meet = collections.defaultdict(set)
    for name in names:
        meet[to.get(name, name)].add(name)
    for new, olds in sorted(meet.items()):
        if len(olds) > 1 and len(olds - set(APART)) > 1:
            print(f"look: {sorted(olds)} fall together as {new}")
    return to


USE = re.compile(r"\buse ([^\s;{]+)\.\{([^}]*)\}")


def imported(text):
    """names that a file takes from a library, as it calls them"""
    out = set()
    for m in USE.finditer(text):
        if m[1].startswith("Rattle.") and not m[1].startswith("Rattle.std.") and not m[1].startswith("Rattle.core."):
            continue
        for part in m[2].split(","):
            part = part.strip()
            if part:
                out.add(part.split(" as ")[-1].strip())
                out.add(part.split(" as ")[0].strip())
    return out


TOKEN = re.compile(rf"(?P<dot>\.)?(?P<name>{NAME})")


def turn(text, to, names, labels, keep=()):
    """the names of `to`, word by word; behind a dot where it is a field, or a path of our own"""
    skip = imported(text) | set(keep)
    out, at = [], 0
    comment = re.compile(r"--[^\n]*")
    spans = [(m.start(), m.end()) for m in comment.finditer(text)]
    k = 0
    for m in TOKEN.finditer(text):
        while k < len(spans) and spans[k][1] <= m.start():
            k += 1
        if k < len(spans) and spans[k][0] <= m.start() < spans[k][1]:
            continue
        name = m["name"]
        if name not in to:
            continue
        if m["dot"]:
            head = re.search(rf"({NAME})$", text[: m.start()])
            if labels and (not head or head[1] in ("tie", "at", "known", "goal", "places") or not names[name] & {"field"}):
                continue
            if name == "result":
                continue
        elif name in skip:
            continue
        out.append(text[at : m.start("name")])
        out.append(to[name])
        at = m.end("name")
    return "".join(out) + text[at:]


# ---- the clauses of src/

FN = re.compile(r"(?m)^[ \t]*(?:pub )?(?:unsafe )?(?:extern \"C\" )?fn \w+")


def parameters(text, start):
    """name -> '&', '&mut' or '' of the signature that begins at start, and where it ends"""
    at = text.index("(", start)
    depth, i = 0, at
    while True:
        if text[i] in "([{":
            depth += 1
        elif text[i] in ")]}":
            depth -= 1
            if not depth:
                break
        i += 1
    inner, params = text[at + 1 : i], {}
    for m in re.finditer(r"«?(\w+)»?\s*:\s*(&(?:'\w+\s+)?(?:mut )?)?", re.sub(r"//[^\n]*", "", inner)):
        ref = m[2] or ""
        params[m[1]] = "&mut" if "mut" in ref else "&" if ref else ""
    return params, i + 1


def clauses(text, at):
    """the span from the signature's end to the body's brace: the clauses"""
    head = re.compile(r"[^\n{;]*[{;]").match(text, at)
    if head:  # the body, or the end of a declaration, is on the signature's own line: there are none
        return at, at
    m = re.compile(r"\n[ \t]*\{").search(text, at)
    return at, m.start() if m else at


def behind(name, params, when):
    plain = name.strip("«»")
    kind = params.get(plain, "&")
    return f"{name}.now" if kind != "&mut" else f"{name}.{when}"


ARG = r"«?\w+»?"


def moments(clause, params):
    def tables(m):
        when = {"now": "old", "old": "old", "new": "new"}[m[1]]
        args = m[3].split()
        head = "lent_record" if m[2] == "Record" else "lent"
        first = [args.pop(0)] if m[2] == "Tables" else []
        return " ".join([head, *first, *(behind(a, params, when) for a in args)])

    clause = re.sub(rf"\b(now|old|new)(Record)((?:\s+{ARG}){{4}})", tables, clause)
    clause = re.sub(rf"\b(now|old|new)(Tables)((?:\s+[\w.]+)(?:\s+{ARG}){{11}})", tables, clause)
    clause = re.sub(rf"\((old|new) ({ARG})\)", lambda m: behind(m[2], params, m[1]), clause)
    clause = re.sub(rf"(?<![\w.])(old|new) ({ARG})(?= ≡)", lambda m: behind(m[2], params, m[1]), clause)
    return clause


STARRED = re.compile(r"( *)ensures\* \{ λ (\w+)\. (.*?)\s*\}(?=\n *ensures|\n\{|\n *$|$)", re.S)


def unstar(clause):
    """a starred clause whose parts are plain facts: one clause each, with those lets that it reads"""

    def go(m):
        indent, bound, body = m[1], m[2], re.sub(r"(?<![\w.])result(?!\w)", APART["result"], m[3])
        cut = body.index("⌜")
        lets, facts = body[:cut], re.findall(r"⌜ (.*?) ⌝", body[cut:], re.S)
        lets = re.findall(r"let (\w+) = (.*?)\s+in\b", lets, re.S)
        out = []
        for k, fact in enumerate(facts):
            need, used = fact, []
            for name, value in reversed(lets):
                if re.search(rf"(?<![\w.]){name}(?!\w)", need):
                    used.insert(0, (name, value))
                    need += " " + value
            body = "".join(f"let {n} = {v} in\n{indent}    " for n, v in used) + fact
            if bound != "u":
                body = re.sub(rf"(?<![\w.]){bound}(?!\w)", "result", body)
            label = " " + next(label for word, label in LABELS if word in fact) if len(facts) > 1 else ""
            out.append(f"{indent}ensures{label} {{ {body} }}")
        return "\n".join(out)

    return STARRED.sub(go, clause)


# what the parts of a starred clause are called, by a word that they have
LABELS = [
    ("LentDemand3", "demand3_holds"),
    ("andled n", "as_ruled"),
    ("hecked n", "leaves_well_formed"),
    ("Still n s", "stays_settled"),
    ("Still n t", "settles"),
    ("entMade", "as_ruled"),
    ("handedBack", "slice_handed_back"),
    ("flatOf", "rows_are"),
    ("rowCounts", "counts_are"),
]


def source(text):
    out, at = [], 0
    for m in FN.finditer(text):
        if m.start() < at:
            continue
        params, end = parameters(text, m.start())
        a, b = clauses(text, end)
        out.append(text[at:a])
        part = moments(text[a:b], params)
        part = unstar(part)
        out.append(part)
        at = b
    text = "".join(out) + text[at:]
    text = re.sub(r"ghost use Rattle\.bits\.specs\.Moments\.\{[^}]*\};\n", "", text)

    def lents(m):
        words = [w.strip() for w in m[2].split(",")]
        kept = [w for w in words if not re.match(r"(now|old|new)(Record|Tables)$", w)]
        if len(kept) == len(words):
            return m[0]
        if m[1] == "lenttables":
            kept += [] if "lent" in kept else ["lent"]
            return "ghost use Rattle.lenttables.specs.Lent.{%s};\n" % ", ".join(kept)
        rest = "ghost use Rattle.levels.specs.Lent.{%s};\n" % ", ".join(kept) if kept else ""
        return rest + "ghost use Rattle.levels.specs.Record.{lentRecord};\n"

    return re.sub(r"ghost use Rattle\.(levels|lenttables)\.specs\.Lent\.\{([^}]*)\};\n", lents, text)


def in_clauses(text, to, names):
    """the names, in ghost use lines, clauses and ghost members alone"""
    skip = imported(text)
    spans = [(m.start(), m.end()) for m in re.finditer(r"(?m)^ghost use [^;]*;", text)]
    for m in FN.finditer(text):
        _, end = parameters(text, m.start())
        spans.append(clauses(text, end))
    out, at = [], 0
    for a, b in sorted(spans):
        out.append(text[at:a])
        # in a clause `result` is the language's
        out.append(turn(text[a:b], to, names, False, skip if text.startswith("ghost use", a) else skip | {"result"}))
        at = b
    return "".join(out) + text[at:]


PATH = rf"[\w.-]+"


def proof(text):
    """in a proof: the record and the tables behind references, by the words that stay"""
    text = re.sub(rf"\bnowRecord((?:\s+{PATH}){{4}})", lambda m: "lentRecord " + " ".join(a + ".now" for a in m[1].split()), text)
    text = re.sub(rf"\bnowTables(\s+{PATH})((?:\s+{PATH}){{11}})", lambda m: f"lent{m[1]} " + " ".join(a + ".now" for a in m[2].split()), text)
    text = text.replace("use Rattle.levels.specs.Lent.{nowRecord}\n", "use Rattle.levels.specs.Record.{lentRecord}\n")
    text = text.replace("Lent.{lent, nowTables", "Lent.{lent").replace("Lent.{nowTables", "Lent.{lent")
    return text


# Definitions that only said what the language says now.
GONE = ["crates/bits/specs/Moments.antt", "crates/levels/specs/Lent.antt"]
WRAPPERS = re.compile(r"-- a number behind a reference\n.*?(?=-- `lengths)", re.S)
UNUSED = re.compile(r"use (?:denote\.Triple\.Both|Rattle\.bits\.specs\.Moments|Rattle\.std\.specs\.Borrow|Rattle\.levels\.specs\.Lent)\.\{[^}]*\}\n")


def without_wrappers():
    for path in GONE:
        if os.path.exists(path):
            os.remove(path)
            lib = os.path.join(os.path.dirname(path), "Lib.antt")
            with open(lib, encoding="utf-8") as f:
                was = f.read()
            write(lib, was.replace(f"pub mod {os.path.basename(path)[:-5]}\n", ""), was)
    path = "crates/lenttables/specs/Lent.antt"
    with open(path, encoding="utf-8") as f:
        was = f.read()
    write(path, UNUSED.sub("", WRAPPERS.sub("", was)), was)


def write(path, text, was):
    if text != was:
        with open(path, "w", encoding="utf-8") as f:
            f.write(text)


def main():
    if not os.path.isdir("crates"):
        sys.exit("respell: run it at the top of the repository")
    without_wrappers()
    names = declared()
    to = table(names)
    for path in antt_files():
        with open(path, encoding="utf-8") as f:
            was = f.read()
        labels = path.endswith(("Proof.antt", "Paths.antt"))
        text = proof(was) if "/proofs/" in path else was
        write(path, turn(text, to, names, labels), was)
    for path in sorted(glob.glob("crates/*/src/**/*.rt", recursive=True)):
        with open(path, encoding="utf-8") as f:
            was = f.read()
        write(path, in_clauses(source(was), to, names), was)
    print(f"respell: {len(to)} names")


if __name__ == "__main__":
    main()
