"""Tries the edits of edits/: tries.py FOLDER [--jobs N] [CRATE ..], by edits/try.sh --all.

An edit is applied in a copy of all crates, and then the prover is asked about the functions that its lines stand in: one of them must be
refused for an open goal of its own. Edits of other functions of the crate are applied and asked beside it. Where these functions are
proved, those that name them are asked; and where that does not do, or an edit turns a definition, `rt must-fail` is, which
checks the whole crate.

FOLDER/log has a line for each edit that was tried: crate, sum, edit, answer, and what the prover said first. The sum is of all
that the answer rests on, so a later call goes on behind what is done, and tries again an edit that has changed, and those of a crate
that has, or one below it. edits/answers has such lines too: those that still held when a call last ended, which is where each call
begins. FOLDER/copy1 .. have the files that are checked. Printed are counts, and each edit that was not refused for its meaning."""
import concurrent.futures
import hashlib
import os
import queue
import re
import shutil
import subprocess
import sys
import threading
from collections import Counter

# The answers. LEFT is one of a check of functions alone: the whole crate has to be checked.
REFUSED, LIMIT, NAMES, MISSED, BAD, UNTRIED, LEFT = "refused", "limit", "names", "missed", "bad", "untried", "left"
WORDS = {
    REFUSED: "refused",
    LIMIT: "by a limit of the prover alone",
    NAMES: "for a name that proofs cite alone",
    MISSED: "NOT REFUSED",
    BAD: "BAD",
    UNTRIED: "NOT TRIED",
}
# What is kept beside the edits, and how much of what the prover said.
KEPT = "edits/answers"
MOST_SAID = 200
# As many edits are asked at once, and as many functions that name one that is turned.
AT_ONCE = 6
MOST_CALLERS = 12

FUNCTION = re.compile(r"( *)(?:pub(?:\([a-z ]+\))? )?(?:const )?(?:unsafe )?fn (\w+)")
BLOCK = re.compile(r"( *)(?:pub(?:\([a-z ]+\))? )?(?:unsafe )?(?:impl|trait)\b(.*)")
TYPE = re.compile(r"(?:pub(?:\([a-z ]+\))? )?(?:struct|enum|union) (\w+)")
CONSTANT = re.compile(r"(?:pub(?:\([a-z ]+\))? )?(?:const|static) (\w+)")
# A proof that names what is gone says nothing of a contract.
GONE = re.compile(r"(note: )?(\./)?proofs/.*(has no field|is not in scope|has no `|was not admitted)")
AT_LIMIT = re.compile(
    r"antt ran out of (stack|the (steps|memory) that the check of one declaration may (take|use))"
    r"|(outgrew the memory limit|stopped at the step limit) \("
)


def read(path):
    with open(path, encoding="utf-8") as file:
        return file.read()


def name_of_block(head):
    """What a check calls an impl or a trait, by what stands behind that word."""
    head = head.split("{")[0].split(" where ")[0].strip()
    if head.startswith("<"):
        depth = 0
        for at, c in enumerate(head):
            depth += (c == "<") - (c == ">" and head[at - 1] != "-")
            if depth == 0:
                head = head[at + 1 :].strip()
                break
    named = [re.split(r"[<(\s:]", part.strip().lstrip("&"))[0] for part in head.split(" for ")]
    if len(named) == 1 or named[0] == "Drop":
        return named[-1]
    return named[1] + named[0]


class Function:
    """A function of a crate: its file, its lines, its name, and its path below the crate, where a method stands with its type."""

    def __init__(self, file, lines, at, end, name, block, types):
        homes = types.get(block, [file])
        home = file if file in homes else homes[0]
        module = [it for it in home[len("src/") : -len(".rt")].split("/") if it not in ("lib", "main", "mod")]
        self.file, self.first, self.last, self.name = file, at, end, name
        self.path = "::".join([*module, *([block] if block else []), name])
        self.text = "\n".join(lines[at : end + 1])


def functions_of(folder):
    """The functions of a crate, but for those of its tests."""
    paths = (f"{at}/{name}" for at, _, names in os.walk(f"{folder}/src") for name in sorted(names) if name.endswith(".rt"))
    files = {os.path.relpath(path, folder): read(path).split("\n") for path in paths if os.path.basename(path) != "tests.rt"}
    types, found = {}, []
    for file, lines in files.items():
        for it in filter(None, map(TYPE.match, lines)):
            types.setdefault(it[1], []).append(file)
    for file, lines in files.items():
        block = ""
        for number, line in enumerate(lines):
            head, it = BLOCK.match(line), FUNCTION.match(line)
            if head and not head[1]:
                block = name_of_block(head[2])
            elif it:
                ends = (n for n in range(number, len(lines)) if lines[n] == f"{it[1]}}}" or n == number and line.endswith(("}", ";")))
                last = next(ends, number)
                found.append(Function(file, lines, number, last, it[2], block if it[1] else "", types))
    return found


class Edit:
    """An edit of a crate, with the functions that it turns, and the names of those and of the constants."""

    def __init__(self, path, folder, functions):
        self.file, self.name = path, os.path.basename(path)[: -len(".edit")]
        self.pairs, self.functions, self.turned = [], [], set()
        file = old = ""
        for line in read(path).split("\n"):
            if line.startswith("file: "):
                file = line[len("file: ") :].strip()
            elif line.startswith("old: "):
                old = line[len("old: ") :]
            elif line.startswith("new:"):
                self.pairs.append((file, old, line[len("new:") :].removeprefix(" ")))
                self.look_at(f"{folder}/{file}", file, old, functions)

    def look_at(self, path, file, old, functions):
        text = read(path)
        line = text.count("\n", 0, text.find(old))
        at = [it for it in functions if it.file == file and it.first <= line <= it.last]
        self.functions += at[-1:]
        if at:
            self.turned.add(at[-1].name)
        elif file.startswith("src/"):
            above = (CONSTANT.match(it) for it in reversed(text.split("\n")[: line + 1]))
            self.turned |= {next(it[1] for it in above if it)}

    def callers(self, functions):
        """The functions that name what the edit turns."""
        if not self.turned or not all(file.startswith("src/") for file, _, _ in self.pairs):
            return []
        names = re.compile(rf"\b({'|'.join(sorted(self.turned))})\b")
        return [it for it in functions if it not in self.functions and names.search(it.text)][:MOST_CALLERS]


class Applied:
    """The files of a crate with some edits applied, while it is open: then they are as they were, with their times."""

    def __init__(self, edits, folder):
        self.edits, self.folder, self.was = edits, folder, {}

    def __enter__(self):
        for edit in self.edits:
            for file, old, new in edit.pairs:
                path = f"{self.folder}/{file}"
                text, state = read(path), os.stat(path)
                self.was.setdefault(path, (text, (state.st_atime_ns, state.st_mtime_ns)))
                self.write(path, text.replace(old, new))

    def __exit__(self, *_):
        for path, (text, times) in self.was.items():
            self.write(path, text)
            os.utime(path, ns=times)

    @staticmethod
    def write(path, text):
        with open(path, "w", encoding="utf-8") as file:
            file.write(text)


def said(words, folder):
    ran = subprocess.run(words, cwd=folder, stdin=subprocess.DEVNULL, stdout=subprocess.PIPE, stderr=subprocess.STDOUT, errors="replace")
    return ran.stdout.split("\n")


def asked(edits, functions, folder):
    """What the check of functions says over some edits."""
    paths = [word for path in dict.fromkeys(it.path for it in functions) for word in ("--only", path)]
    with Applied(edits, folder):
        return said(["rt", "check", "--jobs", "1", *paths], folder)


def is_of(line, function):
    """Whether what is said stands in a function or its proof."""
    at = re.match(rf"(?:note: )?(?:\./)?{re.escape(function.file)}:(\d+):", line)
    if at:
        return function.first < int(at[1]) <= function.last + 1
    return re.search(rf"proofs/(\S*/)?{re.escape(function.path.replace('::', '/'))}/", line) is not None


def first(lines, pattern):
    return next((it for it in lines if re.search(pattern, it)), "")


def answer_of(crate, functions, lines, is_alone):
    """What a check says of an edit by some functions, as an answer and the reason; None where the edit has to be asked alone."""
    if not first(lines, r"^only="):
        if not is_alone:
            return None
        form = first(lines, r"\berror\[[\w-]+\]")
        return (BAD, form) if form else (LEFT, first(lines, AT_LIMIT) or first(lines, "error|fits"))
    refused = [it for it in functions if first(lines, rf"^fn {crate}::{re.escape(it.path)}(\+\w+::\w+)?: (not proved|no proof)")]
    told = [it for it in lines if re.match(r"(note: )?\S+:\d+:\d+:", it) and (": error" in it or it.startswith("note: "))]
    own = [it for it in told if any(is_of(it, function) for function in refused)]
    meant = next((it for it in own + told * is_alone if not GONE.match(it)), "")
    if refused and meant:
        return REFUSED, f"{refused[0].path}: {meant}"
    if first(lines, AT_LIMIT) or refused and not is_alone:
        return (LIMIT, first(lines, AT_LIMIT)) if is_alone else None
    if refused:
        return (NAMES, told[0]) if told else (LEFT, f"{refused[0].path} is not proved")
    return LEFT, "its functions are proved"


def groups(edits):
    """Edits in groups, in each of which no function is turned twice."""
    made = []
    for edit in edits:
        for group in made:
            if len(group) < AT_ONCE and not {function for it in group for function in it.functions} & set(edit.functions):
                group.append(edit)
                break
        else:
            made.append([edit])
    return made


def by_functions(crate, edits, folder):
    """What the checks of functions say of edits: pairs of an edit and its answer."""
    alone = []
    for group in groups([it for it in edits if it.functions]):
        lines = asked(group, [function for it in group for function in it.functions], folder)
        for edit in group:
            answer = answer_of(crate, edit.functions, lines, len(group) == 1)
            if answer:
                yield edit, answer
            else:
                alone.append(edit)
    for edit in alone:
        yield edit, answer_of(crate, edit.functions, asked([edit], edit.functions, folder), True)
    for edit in edits:
        if not edit.functions:
            yield edit, (LEFT, "")


def by_callers(crate, edit, folder, functions):
    """What the check of those functions says that name what an edit turns."""
    callers = edit.callers(functions)
    return answer_of(crate, callers, asked([edit], callers, folder), True) if callers else (LEFT, "")


def by_crate(crate, edits, copy):
    """What `rt must-fail` says of edits, by their names."""
    room = f"{copy}/crates/{crate}/must-fail"
    os.makedirs(room, exist_ok=True)
    for edit in edits:
        shutil.copy(edit.file, room)
    answers = {}
    for line in said(["rt", "must-fail", crate], copy):
        it = re.match(r"(?:rt: )?must-fail \w+/([\w.-]+)[.]edit: (.*)", line)
        if it:
            kinds = [
                (r"refused, as it must be \(only by a limit", LIMIT),
                (r"refused, as it must be \(only because", NAMES),
                ("refused, as it must be", REFUSED),
                ("NOT REFUSED", MISSED),
                ("BAD EDIT", BAD),
            ]
            answers[it[1]] = next((kind for words, kind in kinds if re.match(words, it[2])), UNTRIED), it[2]
    shutil.rmtree(room)
    return answers


def edits_of(crate):
    """The names of a crate's edits outside the gate."""
    names = sorted(os.listdir(f"edits/{crate}")) if os.path.isdir(f"edits/{crate}") else []
    return [it[: -len(".edit")] for it in names if it.endswith(".edit")]


def sums():
    """For each edit, by its crate and name, a sum of all that its answer rests on: the kit, its text, and the files of its crate and of all
    below."""
    kit = subprocess.run(["rt", "version"], stdout=subprocess.PIPE).stdout
    lines = [re.match(r"(\w+)(?: staticlib)?:(.*)", it) for it in read("crates.txt").split("\n")]
    below = {it[1]: it[2].split() for it in lines if it}
    own = {}
    for crate in below:
        sum = hashlib.sha256()
        for at, folders, names in os.walk(f"crates/{crate}"):
            folders[:] = sorted(it for it in folders if it not in ("out", "must-fail"))
            for path in (f"{at}/{it}" for it in sorted(names)):
                with open(path, "rb") as file:
                    sum.update(f"{path}\0".encode() + hashlib.sha256(file.read()).digest())
        own[crate] = sum.digest()
    made = {}
    for crate in below:
        known, left = set(), [crate]
        while left:
            it = left.pop()
            if it in below and it not in known:
                known.add(it)
                left += below[it]
        files = hashlib.sha256(kit + b"".join(own[it] for it in sorted(known)))
        for edit in edits_of(crate):
            sum = files.copy()
            sum.update(read(f"edits/{crate}/{edit}.edit").encode())
            made[crate, edit] = sum.hexdigest()[:16]
    return made


def copied(copy):
    """Puts the files of all crates into a folder, without the edits in the gate, and links the libraries that are built."""
    for crate in os.listdir("crates"):
        for part in ("src", "specs", "proofs"):
            to = f"{copy}/crates/{crate}/{part}"
            shutil.rmtree(to, ignore_errors=True)
            if os.path.isdir(f"crates/{crate}/{part}"):
                shutil.copytree(f"crates/{crate}/{part}", to)
        built, to = f"crates/{crate}/out/rlib", f"{copy}/crates/{crate}/out/rlib"
        if os.path.isdir(built) and not os.path.isdir(to):
            shutil.copytree(built, to, copy_function=os.link, symlinks=True)
    for file in ("crates.txt", "HANDLES"):
        shutil.copy(file, copy)


class Log:
    """What is done, a line for each edit."""

    def __init__(self, path):
        self.path, self.lock, self.answers = path, threading.Lock(), {}
        for file in filter(os.path.exists, (KEPT, path)):
            for line in filter(None, read(file).split("\n")):
                crate, sum, edit, answer, *why = line.split(" ", 4)
                self.answers[crate, sum, edit] = answer, "".join(why)

    def add(self, crate, sum, edit, answer, why):
        with self.lock:
            self.answers[crate, sum, edit] = answer, why
            if answer != UNTRIED:
                with open(self.path, "a", encoding="utf-8") as file:
                    file.write(self.line(crate, sum, edit, answer, why))

    def keep(self, sum_of):
        """Writes the answers that hold for the files as they stand to where they are kept beside the edits."""
        held = [it for it in sorted(self.held(sum_of).items()) if it[1][0] != UNTRIED]
        Applied.write(KEPT, "".join(self.line(crate, sum_of[crate, edit], edit, *answer) for (crate, edit), answer in held))

    def held(self, sum_of):
        """The answers that hold for the files as they stand, by crate and edit."""
        return {(crate, edit): it for (crate, sum, edit), it in self.answers.items() if sum == sum_of.get((crate, edit))}

    @staticmethod
    def line(crate, sum, edit, answer, why):
        return f"{crate} {sum} {edit} {answer} {why[:MOST_SAID]}".rstrip() + "\n"


def tried(crate, sum_of, copy, log):
    """Tries the edits of a crate of which the log does not tell."""
    folder = f"{copy}/crates/{crate}"
    functions = functions_of(folder)
    names = [it for it in edits_of(crate) if (crate, sum_of[crate, it], it) not in log.answers]
    edits, left = [Edit(f"edits/{crate}/{it}.edit", folder, functions) for it in names], []
    for edit, (answer, why) in by_functions(crate, edits, folder):
        if answer == LEFT:
            answer, why = by_callers(crate, edit, folder, functions)
        if answer == LEFT:
            left.append(edit)
        else:
            log.add(crate, sum_of[crate, edit.name], edit.name, answer, why)
    answers = by_crate(crate, left, copy) if left else {}
    for edit in left:
        log.add(crate, sum_of[crate, edit.name], edit.name, *answers.get(edit.name, (UNTRIED, "rt must-fail said nothing of it")))


def main(words):
    jobs = 2
    if "--jobs" in words:
        at = words.index("--jobs")
        jobs = int(words[at + 1])
        del words[at : at + 2]
    folder, *crates = words
    os.makedirs(folder, exist_ok=True)
    sum_of = sums()
    crates = crates or list(dict.fromkeys(crate for crate, _ in sum_of))
    for crate in crates:
        if not edits_of(crate):
            sys.exit(f"edits/{crate}: no such folder, or no edits in it")
    log, copies = Log(f"{folder}/log"), queue.Queue()
    for number in range(1, jobs + 1):
        copied(f"{folder}/copy{number}")
        copies.put(os.path.abspath(f"{folder}/copy{number}"))

    def one(crate):
        copy = copies.get()
        try:
            tried(crate, sum_of, copy, log)
        finally:
            copies.put(copy)

    with concurrent.futures.ThreadPoolExecutor(jobs) as pool:
        for _ in pool.map(one, crates):
            pass
    log.keep(sum_of)
    return told(crates, sum_of, log)


def told(crates, sum_of, log):
    """Prints what came of all edits of some crates, and returns whether each was refused."""
    all, held = Counter(), log.held(sum_of)
    for crate in [*crates, None]:
        answers = {edit: it for (of, edit), it in held.items() if of == crate}
        count = Counter(answer for answer, _ in answers.values()) if crate else all
        if crate:
            all += count
        parts = [f"{count[it]} {words}" for it, words in WORDS.items() if count[it] or it == REFUSED]
        print(f"{crate or 'all'}: {count.total()} edits, {', '.join(parts)}")
        for edit, (answer, why) in sorted(answers.items()):
            if answer != REFUSED:
                print(f"    {edit}: {WORDS[answer]}: {why}")
    return not all[MISSED] + all[BAD] + all[UNTRIED]


if __name__ == "__main__":
    sys.exit(0 if main(sys.argv[1:]) else 1)
