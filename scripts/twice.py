#!/usr/bin/env python3
"""Lemmas that stand twice: scripts/twice.py [LINES], which prints those that take more than LINES lines together, 8 if left out.

Two lemmas are the same where their statements are, but for the names of variables, and where the words in them are imported from the same
files. Each line has how many lines the lemma takes in all places together, its places, and its statement. The home of a lemma is
the lowest crate that all of its places can cite: `vtl_lists` for lists and tests alone, or the crate of its words."""
import collections
import glob
import os
import re
import sys

SIGNS = {"λ", "→", "×", "≡", ":", "∷", "++", "⊎", "⊥", "+", "||", "&&", "==", "<", "≤", "*", "-", "^", "in", "let", "if", "then", "else", "Type"}
IMPORTS = re.compile(r"(?:pub )?use (\S+)\.\{(.*)\}$")
ALIAS = re.compile(r"(?:pub )?use (\S+) as (\S+)$")
LEMMA = re.compile(r"(?:pub )?([^\s:({]+) : ")
TOKEN = re.compile(r'[(){}\[\]]|[^\s(){}\[\],;"]+')


class ProofFile:
    """A file of lemmas: where its words come from, and the lines of each lemma at its top level."""

    def __init__(self, path):
        with open(path, encoding="utf-8") as file:
            self.lines = file.read().split("\n")
        self.path, self.words, self.aliases, self.lemmas = path, {}, {}, {}
        for line in self.lines:
            self.look_at(line)
        at = 0
        while at < len(self.lines):
            head = LEMMA.match(self.lines[at])
            end = self.end_of(at) if head else at + 1
            if head:
                self.lemmas[head[1]] = self.lines[at:end]
            at = end

    def look_at(self, line):
        if found := IMPORTS.match(line):
            for item in found[2].split(","):
                name, _, own = item.strip().partition(" as ")
                home = "" if found[1].startswith("Rattle.std.") else f"{found[1]}."
                for word in (own or name).split("◌") if "◌" in name else [own or name]:
                    self.words[word] = home + name
        elif found := ALIAS.match(line):
            self.aliases[found[2]] = found[1]

    def end_of(self, at):
        """Behind the last line of the lemma that begins here: an empty line ends it, where no further line of it is indented."""
        end = at + 1
        while end < len(self.lines):
            line, after = self.lines[end], self.lines[min(end + 1, len(self.lines) - 1)]
            if line.startswith("--") or not line and not after.startswith("  "):
                break
            end += 1
        return end

    def statement(self, name):
        """What the lemma says, its variables by number; nothing, where it names a word of its own file."""
        head = [self.lemmas[name][0]]
        for line in self.lemmas[name][1:]:
            if not line.startswith(" "):
                break
            head.append(line)
        said, numbers = [], {}
        for token in TOKEN.findall(" ".join(head).split(" : ", 1)[1]):
            word, dot = (token[:-1], ".") if token.endswith(".") and len(token) > 1 else (token, "")
            first, _, field = word.partition(".")
            if word in self.lemmas:
                return ""
            if word in SIGNS or word in "(){}[]" or word.isdigit():
                known = word
            elif word in self.words:
                known = self.words[word]
            elif first in self.aliases:
                known = f"{self.aliases[first]}.{field}"
            else:
                known = f"{numbers.setdefault(first, len(numbers))}.{field}"
            said.append(known + dot)
        return " ".join(said)


def main():
    most = int(sys.argv[1]) if len(sys.argv) > 1 else 8
    os.chdir(os.path.join(os.path.dirname(os.path.abspath(__file__)), "..", "crates"))
    places = collections.defaultdict(list)
    for path in sorted(glob.glob("*/proofs/*.antt")):
        file = ProofFile(path)
        for name in file.lemmas:
            if said := file.statement(name):
                places[said].append((f"{path}:{name}", file.lemmas[name]))
    twice = [(sum(len(lines) for _, lines in found), found) for found in places.values() if len(found) > 1]
    for total, found in sorted(twice, key=lambda it: -it[0]):
        if total > most:
            print(total, *[place for place, _ in found], "|", found[0][1][0].split(" : ", 1)[1][:120])
    print(f"{len(twice)} lemmas stand twice or more, in {sum(total for total, _ in twice)} lines")


main()
