#!/usr/bin/env python3
"""Brings the repository's own definitions and lemmas to today's spelling, over the text that the kit's port.py has left.

usage: tools/port/spelling.py            at the top of the repository, once, after port.py
       tools/port/spelling.py --list     prints the names that would change, and changes nothing

A fact, a type and a theorem's statement are in upper camel case (`Number-injective` is `NumberInjective`); every other word is in snake case
(`numberOf` is `number_of`, `told-once` is `told_once`), but a dash stays between two definitions that a lemma is about (`length-keep`). A name that
Rattle made or that its library has keeps its spelling, and so does whatever src/ names. Names in backticks follow, in comments and in the pages.
"""

import os
import re
import sys

TOKEN = re.compile(r"[^\s(){}\[\],;.«»\"`]+")
WORD = re.compile(r"^[A-Za-z][\w'₀-₉⁻¹-]*$")
USE = re.compile(r"^[ \t]*(?:pub )?use ([^\s{]+)\.\{([^}]*)\}", re.M)
GHOST_USE = re.compile(r"^[ \t]*ghost use ([^\s{;]+)\.\{([^}]*)\};", re.M)
MADE = re.compile(r"\.proofs\.(?:.*\.)?(?:Lts|Tie|Statement|Goals|Given|Code)$|\.proofs\.(?:.*\.)?(?:Lts|Tie|Statement|Goals|Given|Code)\.|\.specs\.(?:declared|contracts)(?:\.|$)")
LIBRARY_PARTS = {"append", "nil", "cons", "zero", "suc", "map", "length", "take", "drop", "set", "replicate", "min", "cond", "not"}


def files(root, endings):
    for folder, dirs, names in os.walk(os.path.join(root, "crates")):
        dirs[:] = sorted(d for d in dirs if d not in ("out", "data"))
        for n in sorted(names):
            if n.endswith(endings):
                yield os.path.join(folder, n)


def text_of(path):
    with open(path, encoding="utf-8") as f:
        return f.read()


def imported(text, crates, form=USE):
    """The names that a file imports: of this repository, and of the library or made by Rattle."""
    own, other = set(), set()
    for path, names in form.findall(text):
        steps = path.split(".")
        mine = steps[0] == "Rattle" and len(steps) > 1 and steps[1] in crates and not MADE.search(path)
        for n in names.split(","):
            parts = n.strip().split(" as ")
            if parts[0]:
                (own if mine else other).add(parts[0].strip())
                if len(parts) > 1:
                    own.add(parts[1].strip())
    return own, other


def uncommented(text):
    return re.sub(r"--[^\n]*", "", text)


def hump(word):
    """camelCase in snake case: a capital, and what stands after it up to the next, begins a part."""
    return re.sub(r"(?<=[a-z0-9])([A-Z])", r"_\1", word).lower()


def spelt(word, known):
    if word[0].isupper():
        return "".join(p[:1].upper() + p[1:] for p in re.split("[-_]", word))
    parts = [hump(p) for p in word.split("-")]
    out, i = "", 0
    while i < len(parts):
        ends = [j for j in range(len(parts), i, -1) if "_".join(parts[i:j]) in known]
        if not ends:
            return out + ("_" if out else "") + "_".join(parts[i:])
        out += ("-" if out else "") + "_".join(parts[i : ends[0]])
        i = ends[0]
    return out


def changes(word):
    return "-" in word or bool(re.search("[a-z0-9]_[a-z]" if word[0].isupper() else "[a-z0-9][A-Z]", word))


def definitions(root):
    """What specs/ defines, in today's spelling: a lemma's name keeps its dash between two of these."""
    found = set(LIBRARY_PARTS)
    for p in files(root, ".antt"):
        if "/specs/" in p:
            for n in re.findall(r"^(?:abbrev pub|unfoldable pub|pub) ([^\s:]+) :", text_of(p), re.M):
                if WORD.match(n) and not n[0].isupper() and "-" not in n:
                    found.add(hump(n))
    return found


# Names that would fall together with another name of their file, and what they are called instead.
INSTEAD = {}


def lemmas(text, crates):
    """The lemmas that a file of proofs/ states or imports from one."""
    stated = re.sub(r"^(?:pub )?(?:record|data) [^\n]*where\n(?:[ ]+[^\n]*\n|\n)*", "", text, flags=re.M)
    found = set(re.findall(r"^[ ]*(?:pub )?([^\s:]+) : ", stated, re.M))
    for path, names in USE.findall(text):
        if re.match(r"Rattle\.[\w]+\.proofs\.", path) and path.split(".")[1] in crates and not MADE.search(path):
            found |= {n.strip() for n in names.split(",")}
    return found


class Speller:
    def __init__(self, root):
        self.root = root
        with open(os.path.join(root, "crates.txt"), encoding="utf-8") as f:
            self.crates = {line.split("#")[0].split(":")[0].split()[0] for line in f if line.split("#")[0].strip()}
        self.known = definitions(root)
        self.defined = {hump(n) for p in files(root, ".antt") if "/specs/" in p for n in re.findall(r"^(?:abbrev pub|unfoldable pub|pub) ([a-z][^\s:]*) :", text_of(p), re.M)}
        self.names = {}

    def new(self, word):
        if word in INSTEAD:
            return INSTEAD[word]
        name = spelt(word, self.known)
        return name + "_lem" if "-" in word and name in self.defined else name

    def tokens(self, text, keep, fields, clash=frozenset()):
        """text with its own words spelt anew. What stands behind a dot is a field, spelt anew if a record of the repository has it."""
        out, at = [], 0
        for m in TOKEN.finditer(text):
            w = m.group(0)
            out.append(text[at : m.start()])
            at = m.end()
            if text[: m.start()].count('"') % 2:
                out.append(w)
                continue
            dotted = m.start() > 0 and text[m.start() - 1] in ".«"
            if w in clash and not dotted:
                w += "_lem"
            elif WORD.match(w) and changes(w) and (w in fields if dotted else w not in keep):
                self.names[w] = self.new(w)
                w = self.names[w]
            elif re.match(r"◌[a-z]\w*[A-Z]\w*◌$", w):
                w = "◌" + hump(w[1:-1]) + "◌"
            out.append(w)
        return "".join(out) + text[at:]

    def antt(self, text, fields, proofs):
        clash = {n for n in lemmas(uncommented(text), self.crates) if not changes(n)} & self.defined if proofs else set()
        _, keep = imported(uncommented(text), self.crates)
        keep = keep | {"invariant-" + s for s in re.findall(r"\binvariant-([\w-]+)", text)} | {"decreases-" + s for s in re.findall(r"\bdecreases-([\w-]+)", text)}
        lines = []
        for line in text.split("\n"):
            code, mark, said = line.partition("--") if re.search(r"(^|\s)--(\s|$)", line) else (line, "", "")
            use = USE.match(code)
            if use and not self.mine(use.group(1)):
                lines.append(line)
                continue
            lines.append(self.tokens(code, keep, fields, clash) + mark + self.quoted(said, keep))
        return self.aliased("\n".join(lines), r"^[ \t]*(?:pub )?use ")

    def mine(self, path):
        steps = path.split(".")
        return steps[0] == "Rattle" and len(steps) > 1 and steps[1] in self.crates and not MADE.search(path)

    def quoted(self, said, keep=frozenset()):
        def one(m):
            w = m.group(1)
            return "`" + (self.names.get(w, w) if w not in keep else w) + "`"

        return re.sub(r"`([^`\n]+)`", one, said)

    def page(self, said, words):
        """Words in backticks on a page: those that are names no more are spelt anew."""

        def one(m):
            w = m.group(0)
            return self.new(w) if w not in words and changes(w) and self.new(w) in words else w

        return re.sub(r"[A-Za-z][\w'-]*", one, said)

    def aliased(self, text, use):
        """What stands behind the name that a file gives to a module of the repository: `spec.takenFrom` is `spec.taken_from`."""
        for path, alias in re.findall(use + r"([^\s{};]+) as ([^\s;{}]+);?[ ]*$", text, re.M):
            if self.mine(path):

                def one(m):
                    w = m.group(1)
                    if changes(w):
                        self.names[w] = self.new(w)
                    return alias + "." + self.names.get(w, w)

                text = re.sub(r"(?<![\w'.-])" + re.escape(alias) + r"\.([A-Za-z][\w'-]*)", one, text)
        return text

    def source(self, text):
        own, _ = imported(text, self.crates, GHOST_USE)
        own = {w for w in own if WORD.match(w) and changes(w)}
        for w in own:
            self.names[w] = self.new(w)
        lines = []
        for line in text.split("\n"):
            code, mark, said = line.partition("//") if '"' not in line else (line, "", "")
            for w in sorted(own, key=len, reverse=True):
                code = re.sub(r"(?<![\w'-])" + re.escape(w) + r"(?![\w'-])", self.names[w], code)
            lines.append(code + mark + self.quoted(said))
        return self.aliased("\n".join(lines), r"^[ \t]*ghost use ")


def undotted(text):
    return {m.group(0) for m in TOKEN.finditer(text) if m.start() == 0 or text[m.start() - 1] != "."}


def unlengthened(texts):
    """Takes `_lem` off again where no file has the plain word beside it. texts: the new text of each file, changed in place."""
    found = {p: undotted(uncommented(t)) for p, t in texts.items()}
    longer = {w for words in found.values() for w in words if re.match(r"[a-z]\w*_lem$", w)}
    stays = {w for w in longer if any(w in words and w[:-4] in words for words in found.values())}
    for p, t in texts.items():
        for w in sorted((longer - stays) & found[p]):
            t = re.sub(r"(?<![\w'-])" + re.escape(w) + r"(?![\w'-])", w[:-4], t)
        texts[p] = t


def fields_of(root):
    found = set()
    for p in files(root, ".antt"):
        t = uncommented(text_of(p))
        for block in re.findall(r"^(?:pub )?(?:record|data) [^\n]*where\n((?:[ ]+[^\n]*\n|\n)*)", t, re.M):
            found |= {n for n in re.findall(r"^[ ]+(?:pub )?([^\s:]+) :", block, re.M) if WORD.match(n)}
    return found


def main():
    root = os.getcwd()
    s = Speller(root)
    fields = {f for f in fields_of(root) if changes(f)}
    antt, rt = list(files(root, ".antt")), list(files(root, ".rt"))
    new = {}
    for p in antt:
        new[p] = s.antt(text_of(p), fields, "/proofs/" in p)
    for p in antt:  # again, for the names in backticks that a later file defines
        new[p] = s.antt(text_of(p), fields, "/proofs/" in p)
    unlengthened(new)
    for p in rt:
        new[p] = s.source(text_of(p))
    pages = [os.path.join(root, "README.md")] + sorted(os.path.join(root, "docs", n) for n in os.listdir(os.path.join(root, "docs")) if n.endswith(".md"))
    words = {m.group(0) for t in new.values() for m in TOKEN.finditer(t)}
    for p in pages:
        if os.path.exists(p):
            new[p] = re.sub(r"`([^`\n]+)`", lambda m: "`" + s.page(m.group(1), words) + "`", text_of(p))
    together = 0
    for p in antt:
        before = [m.group(0) for m in TOKEN.finditer(uncommented(text_of(p)))]
        after = [m.group(0) for m in TOKEN.finditer(uncommented(new[p]))]
        seen = {}
        for b, a in zip(before, after):
            if seen.setdefault(a, b) != b:
                together += 1
                print(f"{os.path.relpath(p, root)}: {seen[a]} and {b} fall together as {a}")
                seen[a] = b
    if "--list" in sys.argv:
        for w, n in sorted(s.names.items()):
            print(w, n)
        return together > 0
    for p, t in new.items():
        if t != text_of(p):
            with open(p, "w", encoding="utf-8") as f:
                f.write(t)
    print(f"spelling: {len(s.names)} names, {together} that fall together")
    return together > 0


if __name__ == "__main__":
    sys.exit(main())
