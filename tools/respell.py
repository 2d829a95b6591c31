#!/usr/bin/env python3
"""Spells the repository's own antt names as Rattle's library does: words in snake case, types in camel case, no dash in a field.

usage: respell.py [--check]        at the top of the repository

    maxWidth, length-putAll, .path-chain, Demand-1   ->   max_width, length-put_all, .path_chain, Demand1

It reads crates/*/specs, proofs and src, and turns a name there, in the pages of docs/ and in README.md, as far as its file is one of those.
In a .rt file only clauses, ghost items and comments have such names. Functions of src/, strings, numerals and commands keep theirs.
A name stays, with a line 'stays:', where its new spelling would meet another name in a file. A second run changes nothing.
"""

import collections
import glob
import re
import sys

WORD = re.compile(r"[^\s(){}.;,@\"«»\[\]\\`]+")
QUIET = re.compile(r'b?"(?:\\.|[^"\\])*"|b?\'(?:\\x..|\\.|[^\'\\])\'', re.S)
SIGNATURE = re.compile(r"^([ \t]*)(?:(?:abbrev|unfoldable) +)?(?:pub +)?(data +|record +)?((?:[^\s(){}.;,@\"«»\[\]\\:]+ +)+)(?:[({][^=\n]*)?:(?: |$)", re.M)
BUILT = {"getD": "get_or"}
# Names that make room for a definition that comes to be spelled like them: where they stand, the old spelling, the new one.
ROOM = [
    ("crates/mapping/", "edge_test", "edge_test_lem"),
    ("crates/meaning/", "two_steps", "two_steps_lem"),
    ("crates/migration/specs/Encoding", "add_row", "add-row"),
    ("crates/migration/proofs/", "add_row", "add-row"),
    ("crates/paths/", "next_place", "next_place_lem"),
    ("crates/pi/", "place_after", "place_after_lem"),
    ("crates/pi/", "row_count", "row_count_at"),
    ("crates/promises/", "add_row", "add-row"),
    ("crates/rows/", "held_test", "held_test_lem"),
    ("crates/rows/", "row_counts", "row_counts_lem"),
    ("crates/text/", "from_second", "from_second_lem"),
]


def antt():
    return sorted(glob.glob("crates/*/specs/**/*.antt", recursive=True) + glob.glob("crates/*/proofs/**/*.antt", recursive=True))


def rattle():
    return sorted(glob.glob("crates/*/src/**/*.rt", recursive=True))


def pages():
    return sorted(glob.glob("docs/**/*.md", recursive=True)) + ["README.md"]


def read(path):
    with open(path, encoding="utf-8", newline="") as f:
        return f.read()


def code(text):
    """The text without comments."""
    return re.sub(r"(?m)(^|\s)--[ \n].*$|(^|\s)--$", "", text)


def snake(word):
    """A name's spelling in snake case; of a dashed name each part."""
    parts = []
    for part in word.split("-"):
        part = BUILT.get(part, part)
        if part[:1].islower() and re.search(r"[A-Z]", part):
            part = re.sub(r"(?<=[a-z0-9'])([A-Z])", r"_\1", part)
            part = re.sub(r"([A-Z])(?=[A-Z][a-z])", r"\1_", part).lower()
        parts.append(part)
    return "-".join(parts)


def plain(word):
    """A field's or a definition's spelling: no dash."""
    if word[:1].isupper() and re.fullmatch(r"[A-Z]\w*(-\d+)+", word):
        return word.replace("-", "")
    word = snake(snake(word).replace("-", "_"))
    return word[:1].lower() + word[1:] if re.match(r"[A-Z]\d?_", word) else word


def declared(text):
    """The names that the text declares, and which of them are fields."""
    for m in SIGNATURE.finditer(text):
        for name in m.group(3).split():
            yield name, bool(m.group(1)), bool(m.group(2))


def table():
    words, fields = collections.Counter(), set()
    for path in antt():
        text = code(read(path))
        words.update(w for w in WORD.findall(QUIET.sub("", text)))
        specs = "/specs/" in path
        in_record = None
        for line in text.split("\n"):
            head = re.match(r"( *)(?:pub +)?record +\S+.*where *$|( *)(?:pub +)?record +(\S+)", line)
            if head:
                in_record = len(re.match(r" *", line).group())
                continue
            if line.strip() and in_record is not None and len(line) - len(line.lstrip()) <= in_record:
                in_record = None
            for name, inner, kind in declared(line + "\n"):
                if "-" in name and (in_record is not None or (specs and not inner)):
                    fields.add(name)
        if specs:
            fields.update(n for n in re.findall(r"(?m)^ *(?:pub +)?(?:record|data) +([A-Z]\S*)", text) if "-" in n)
    turned = {}
    for word in words:
        if re.match(r"0[xob]|-|\d", word) or word.startswith("--"):
            continue
        new = plain(word) if word in fields else snake(word)
        if new != word and not re.match(r"(Need|After|At|In|Then|Else|Start)-", word):
            turned[word] = new
    return turned, words


def bare(text):
    """The names of a text that stand behind no dot and before none: those that one name could hide from another."""
    text = QUIET.sub("", text)
    return {m.group() for m in WORD.finditer(text) if text[m.start() - 1 : m.start()] != "." and text[m.end() : m.end() + 1] != "."}


def clashes(turned, words):
    """The names whose new spelling stands for something else in a file that has them."""
    out = collections.defaultdict(set)
    for path in antt():
        text = code(read(path))
        here, all_here = bare(text), set(WORD.findall(QUIET.sub("", text)))
        for word in all_here & set(turned):
            if turned[word] in here:
                out[word].add(path)
    for path in rattle():
        for part in re.split(r"(?m)^(?=\s*(?:pub )?fn )", read(path)):
            head = part.split("{")[0]
            names = set(re.findall(r"(?:\(|, |\n\s*)(?:mut )?(\w+): ", head))
            for word in set(WORD.findall(part)) & set(turned):
                if turned[word] in names:
                    out[word].add(path)
    back = collections.defaultdict(set)
    for old, new in turned.items():
        back[new].add(old)
    for new, olds in back.items():
        # a dashed name makes room for one that has none, wherever that stands
        first = [] if new in words else sorted(olds, key=lambda w: ("-" in w, w))[:1]
        for old in olds - set(first):
            if "-" in old and "-" not in new:
                out[old].add("with " + ", ".join(sorted((olds - {old}) | ({new} if new in words else set()))))
    return out


def turn(text, turned, comments=None):
    """The text with its names turned; in comments, which begin as said, those of camel case alone."""
    camel = {old: new for old, new in turned.items() if re.search(r"[a-z0-9'][A-Z]", old)}
    quiet = re.compile(QUIET.pattern + (rf"|(?m:(?:^|(?<=\s)){comments}[^\n]*)" if comments else ""), re.S)

    def words(part, names):
        return WORD.sub(lambda m: names.get(m.group(), m.group()), part)

    if not comments:
        return words(text, camel)
    out, at = [], 0
    for m in quiet.finditer(text):
        kept = m.group()
        if kept.startswith(comments):
            kept = words(kept, camel)
        out += [words(text[at : m.start()], turned), kept]
        at = m.end()
    return "".join(out + [words(text[at:], turned)])


def room():
    """Turns the names of ROOM, which stand behind no dot and before none."""
    for path in antt():
        text = read(path)
        new = text
        for where, old, name in ROOM:
            if path.startswith(where):
                new = re.sub(rf"(?<![^\s(){{}};,@«»])(?<!\.){re.escape(old)}(?![^\s(){{}};,@«»])", name, new)
        if new != text:
            with open(path, "w", encoding="utf-8", newline="") as f:
                f.write(new)


def main(check):
    if not check and any("testSchema" in read(path) for path in antt()):
        room()
    turned, words = table()
    met = clashes(turned, words)
    for word in sorted(met):
        print(f"stays: {word}, and not {turned[word]}: {'; '.join(sorted(met[word]))}")
        del turned[word]
    changed = 0
    for path in antt() + rattle() + pages():
        text = read(path)
        new = turn(text, turned, {"antt": "--", ".rt": "//"}.get(path[-4:] if path.endswith("antt") else path[-3:]))
        if new != text:
            changed += 1
            if not check:
                with open(path, "w", encoding="utf-8", newline="") as f:
                    f.write(new)
    print(f"respell: {len(turned)} names, {changed} files")


if __name__ == "__main__":
    main("--check" in sys.argv[1:])
