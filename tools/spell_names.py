#!/usr/bin/env python3
"""Spells the names that this repository's specs/ and proofs/ declare as today's Rattle does.

usage: tools/spell_names.py [FOLDER]      (once, right after the kit's port.py; FOLDER is the checkout, `.` if it is not given)

A definition, a field, a constructor or a lemma in camel case becomes snake case (`partsOf` is `parts_of`); types, facts and modules keep their
camel case. A dash stays where it joins a definition's name to what is said of it (`get_or-row`); elsewhere it becomes `_` (`at-end` is `at_end`).
Names of Rust code, of the libraries and of what Rattle makes are left alone. Where two names would fall together, the script says so and stops.
"""
import collections
import os
import re
import sys

W = r"[^\s(){}.;,@\"«»\[\]\\]+"
TOKEN = re.compile(r"«[^»]*»|" + W)
DECLARATION = re.compile(r"^( *)((?:abbrev |pub |data |record |unfoldable |opaque |macro )*)([^\s(){}.;,@\"\\λ][^(){}.;,@\"\\]*?)((?: +[({][^\n]*?[)}])*) :(?:\s|$)")
USE = re.compile(r"\buse ([^\s;{]+?)\.?(\{[^}]*\})?(?: as ([^\s;]+))?\s*(?:;|$)", re.M)
# Where a new name would meet another one: what it is called in place of that.
INSTEAD = {
    "absent-item": "absent_item_lem",
    "all-turns": "all_turns_lem",
    "at-end": "at_end_lem",
    "await-words": "await_words_lem",
    "case-d": "case_d_lem",
    "gather-all": "gather_all_lem",
    "initialized-row": "initialized_row_lem",
    "initialized-words": "initialized_words_lem",
    "list-after": "list_after_lem",
    "live-row": "live_row_lem",
    "live-words": "live_words_lem",
    "many-slots": "many_slots_lem",
    "on-top": "on_top_lem",
    "round-charges": "round_charges_lem",
    "successor-at": "successor_at_lem",
    "words-of": "words_of_lem",
    "judged-with": "is_judged",
    "no-such-slot": "stray_slot",
    "slotsBelow": "slots_under",
    "noBytes": "no_byte_sheet",
    "noPlace": "has_no_place",
    "kept_row": "kept_row_lem",
    "same_bits": "same_bits_lem",
}
# Names that stand for one thing in one crate and for another in another one, and never meet.
APART = {"code_at", "first_bit", "list_at", "no_code", "one_more", "host_words", "slots_at", "inline_host"}


def files(root):
    for folder, dirs, names in os.walk(os.path.join(root, "crates")):
        dirs[:] = sorted(d for d in dirs if d != "out")
        for name in sorted(names):
            if name.endswith((".antt", ".rt")):
                yield os.path.join(folder, name)


def quiet(text, rust):
    """The text with comments and strings blanked out, of the same length."""
    blank = lambda m: " " * len(m[0])
    text = re.sub(r'b?"(?:[^"\\]|\\.)*"', blank, text)
    return re.sub(r"//[^\n]*" if rust else r"(?<!\S)--[^\n]*", blank, text)


def declared(path, text):
    """Names that a file of specs/ or proofs/ declares, each with whether it is a field, a constructor or a definition of specs/."""
    plain = quiet(text, False)
    in_data = False
    for line in plain.split("\n"):
        m = DECLARATION.match(line)
        if re.match(r"^ *(abbrev |pub |unfoldable )*data ", line):
            in_data = line.rstrip().endswith("where")
            continue
        if not line.startswith("  "):
            in_data = False
        if not m or re.search(r"\b(record|data|module|use|let|where|elim)\b", m[2] + m[3]):
            continue
        words = m[3].split()
        if len(words) > 1 and not in_data:
            continue
        if "→" in m[3] or "=" in m[3] or "λ" in m[3]:
            continue
        for word in words:
            yield word, "/specs/" in path or (m[1] != "" and "pub" in m[2]) or in_data


def snake(word):
    word = re.sub(r"(?<=[a-z0-9])([A-Z])", lambda m: "_" + m[1].lower(), word)
    return word


def main():
    root = sys.argv[1] if len(sys.argv) > 1 else "."
    texts = {}
    for path in files(root):
        with open(path, encoding="utf-8") as f:
            texts[path] = f.read()
    own = collections.defaultdict(bool)
    for path, text in texts.items():
        of_function = "/proofs/" in path and os.path.basename(path) in ("Proof.antt", "Answers.antt", "Invariants.antt")
        if path.endswith(".antt") and not of_function:
            for name, plain in declared(path, text):
                own[name] |= plain
    crates = {p.split("/crates/")[1].split("/")[0] for p in texts}
    # Names that a lemma may be about: own definitions, types and what files import from libraries.
    heads = {n for n in own if "-" not in n} | {n for n in own if own[n]}
    for path, text in texts.items():
        for m in USE.finditer(quiet(text, path.endswith(".rt"))):
            if m[2]:
                heads |= {w for w in TOKEN.findall(m[2])}
    heads |= {"getD"}
    new = {}
    for name in own:
        if not re.search(r"[a-z0-9][A-Z]|-", name) and name not in INSTEAD:
            continue
        if re.match(r"^[A-Z]\w*$", name) or name.startswith("#"):
            continue
        to = name
        if "-" in to:
            parts = to.split("-")
            if own[name]:
                to = "_".join(parts)
            else:
                head = next((k for k in range(len(parts) - 1, 0, -1) if "-".join(parts[:k]) in heads), 0)
                if head and not (len(parts[0]) < 3):
                    to = "_".join(parts[:head]) + "-" + "_".join(parts[head:])
                else:
                    to = "_".join(parts)
        to = "-".join(p if re.match(r"^[A-Z]", p) else snake(p) for p in to.split("-"))
        to = re.sub(r"(?<![A-Za-z])getD(?![A-Za-z])", "get_or", to).replace("get_d", "get_or")
        to = INSTEAD.get(name, to)
        if to != name:
            new[name] = to
    trouble = []
    back = collections.defaultdict(list)
    for a, b in new.items():
        back[b].append(a)
    for b, olds in sorted(back.items()):
        if b not in APART and (len(olds) > 1 or b in own and b not in new):
            trouble.append(f"{b}: {olds}{' and itself' if b in own else ''}")
    tokens = {}
    for path, text in texts.items():
        tokens[path] = set(TOKEN.findall(quiet(text, path.endswith(".rt"))))
    for path in texts:
        if path.endswith("/Proof.antt"):
            continue  # what meets there is the path of a function
        have = tokens[path]
        # A clause cannot name a Rust function, so one may be called as what it computes.
        called = set(re.findall(r"\b(\w+)\(", texts[path])) if path.endswith(".rt") else set()
        for a in sorted(have & set(new)):
            if new[a] in have and new[a] not in new and new[a] not in called and new[a] not in APART:
                trouble.append(f"{path}: {a} would be {new[a]}, which stands there")
    if "--list" in sys.argv:
        for a in sorted(new):
            print(a, new[a])
    for line in trouble:
        print("together:", line)
    if trouble and "--force" not in sys.argv:
        raise SystemExit(1)
    changed = 0
    for path, text in texts.items():
        rust = path.endswith(".rt")
        if rust:
            new_here = {a: b for a, b in new.items() if re.search(r"[a-z0-9][A-Z]|-", a)}
        else:
            new_here = new
        code = quiet(text, rust)
        foreign = set()
        mine = set()
        for m in USE.finditer(code):
            steps = m[1].split(".")
            names = TOKEN.findall(m[2]) if m[2] else [steps[-1]]
            is_own = steps[0] == "Rattle" and len(steps) > 1 and steps[1] in crates
            (mine if is_own else foreign).update(names)
        foreign -= mine
        out, last = [], 0
        # comments keep their prose; a name of ours in backquotes, or in camel case, follows
        for m in TOKEN.finditer(text):
            t = m[0]
            here = code[m.start():m.end()] == t
            core = t
            pre = post = ""
            if not here:
                n = re.match(r"^(`*)(.*?)(`*[:'’]?)$", t)
                pre, core, post = n[1], n[2], n[3]
                if core not in new_here or not ("`" in pre and "`" in post or re.search(r"[a-z0-9][A-Z]", core)):
                    continue
            elif core not in new_here or core in foreign:
                continue
            out += [text[last:m.start()], pre, new_here[core], post]
            last = m.end()
        out.append(text[last:])
        made = "".join(out)
        if made != text:
            changed += 1
            with open(path, "w", encoding="utf-8") as f:
                f.write(made)
    print(f"spell_names: {len(new)} names in {changed} files")


main()
