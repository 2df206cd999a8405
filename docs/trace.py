#!/usr/bin/env python3
"""Checks a trace table against the repository: python3 docs/trace.py docs/TRACE.md . [PAPER..]

It checks in the second and third column that
- each backticked path exists;
- each backticked name is defined in the file that is named next after it in the same cell;
- each must-fail edit (crate/label) exists;
- each text quoted after "vectors" is a remark of crates/vectors/stdin;
- each text quoted after "starred" is a remark of crates/starred_values/specs/Starred.antt;
- any other quoted text stands in the file that is named next.

With papers it also checks that the first column is taken from one of them, piece by piece (" .. " marks what is left out).
"""
import os
import re
import sys

SUFFIX = (".antt", ".rt", ".md", ".py", ".log", ".txt")
PLAIN = {"vectors/stdin", "vectors/stdout", "axislog/stdin", "axislog/stdout", "logs/stdout", "logs/args"}
# words in backticks that are not names of the repository: words of the languages, and patterns for places
WORDS = {"result ≡ ..", ".. .new ≡ ..", "ensures", "pub fn", "i64", "u16", "[]", "src/", "specs/", "proofs/", "crates/", "docs/", "model/", "name", "path"}


def path_of(root, token):
    for base in ("", "crates", "crates/logs/data"):
        at = os.path.join(root, base, token)
        if os.path.exists(at):
            return at
    return None


def is_path(token):
    return token.endswith(SUFFIX) or token in PLAIN


def is_edit(token):
    return re.fullmatch(r"[a-z_]+/([a-z_0-9]+|\*)", token) is not None and token not in PLAIN


def defined(name, path):
    text = open(path, encoding="utf-8").read()
    last = name.split("::")[-1]
    word = re.escape(last)
    if path.endswith(".rt"):
        if "::" in name and not re.search(r"\bimpl %s\b" % re.escape(name.split("::")[0]), text):
            return False
        return re.search(r"\b(fn|struct|enum|const|mod) %s\b" % word, text) is not None
    if path.endswith(".antt"):
        head = r"^\s*(?:unfoldable |abbrev )?(?:pub )?(?:record |data |ruleset )?"
        return re.search(head + word + r"(?= :| \(|\s*=)", text, re.M) is not None
    return last in text


def cell(root, text, wrong, place):
    """One cell of the second or third column."""
    parts = re.findall(r'`([^`]+)`|"([^"]+)"|\b(vectors|starred)\b', text)
    waiting, quotes, kind = [], [], None
    for token, quote, word in parts:
        if word:
            kind = word
        elif quote:
            if kind == "vectors":
                if not any(l.startswith("#") and quote in l for l in open(os.path.join(root, "crates/vectors/stdin"), encoding="utf-8")):
                    wrong.append(f"{place}: no vectors under {quote!r}")
            elif kind == "starred":
                if quote not in open(os.path.join(root, "crates/starred_values/specs/Starred.antt"), encoding="utf-8").read():
                    wrong.append(f"{place}: no starred {quote!r}")
            elif quote not in ("-",):
                quotes.append(quote)
        elif token in WORDS:
            continue
        elif is_path(token):
            kind = None
            at = path_of(root, token)
            if not at:
                wrong.append(f"{place}: no file {token}")
            else:
                for name in waiting:
                    if not defined(name, at):
                        wrong.append(f"{place}: {name} is not defined in {token}")
                for q in quotes:
                    if re.sub(r"\s+", " ", q) not in re.sub(r"\s+", " ", open(at, encoding="utf-8").read()):
                        wrong.append(f"{place}: {q!r} does not stand in {token}")
            waiting, quotes = [], []
        elif is_edit(token):
            kind = None
            crate, label = token.split("/")
            if label == "*":
                if not os.path.isdir(os.path.join(root, "crates", crate)):
                    wrong.append(f"{place}: no crate {crate}")
            elif not os.path.exists(os.path.join(root, "crates", crate, "must-fail", label + ".edit")):
                wrong.append(f"{place}: no edit {token}")
        else:
            waiting.append(token)
    for name in waiting:
        wrong.append(f"{place}: {name} has no file behind it")
    for q in quotes:
        wrong.append(f"{place}: {q!r} has no file behind it")


def plain(text):
    return re.sub(r"\s+", " ", re.sub(r"[|`*]", " ", text)).strip()


def stands(pieces, paper):
    """The pieces stand in the paper, one behind the other."""
    at = 0
    for piece in pieces:
        found = paper.find(plain(piece), at)
        if found < 0:
            return False
        at = found + len(plain(piece))
    return True


def main(trace, root, *papers):
    wrong, rows, dashes, heading, edits = [], {}, [], "", set()
    texts = [plain(open(paper, encoding="utf-8").read()) for paper in papers]
    for n, line in enumerate(open(trace, encoding="utf-8"), 1):
        if line.startswith("## "):
            heading = line[3:].strip()
        if not line.startswith("|") or line.startswith("|---") or line.startswith("| Document 0"):
            continue
        cells = [c.strip() for c in line.strip().strip("|").split(" | ")]
        if len(cells) != 3:
            wrong.append(f"line {n}: {len(cells)} cells")
            continue
        rows[heading] = rows.get(heading, 0) + 1
        if cells[2] == "-":
            dashes.append(f"line {n}: {cells[0]}")
        for c in cells[1:]:
            cell(root, c, wrong, f"line {n}")
        edits.update(t for t in re.findall(r"`([^`]+)`", cells[2]) if is_edit(t))
        if texts and not any(stands(cells[0].split(" .. "), text) for text in texts):
            wrong.append(f"line {n}: no paper has {cells[0]!r}")
    for w in wrong:
        print(w)
    print(f"{sum(rows.values())} rows: " + ", ".join(f"{h} {k}" for h, k in rows.items()))
    print(f"{len(dashes)} rows with -")
    for d in dashes:
        print("  " + d)
    all_edits = {
        f"{c}/{f[:-5]}"
        for c in sorted(os.listdir(os.path.join(root, "crates")))
        if os.path.isdir(os.path.join(root, "crates", c, "must-fail"))
        for f in os.listdir(os.path.join(root, "crates", c, "must-fail"))
        if f.endswith(".edit")
    }
    print(f"{len(edits & all_edits)} of {len(all_edits)} edits cited; not cited: " + ", ".join(sorted(all_edits - edits)))
    print(f"{len(wrong)} wrong")
    return 1 if wrong else 0


if __name__ == "__main__":
    sys.exit(main(*sys.argv[1:]))
