#!/usr/bin/env python3
"""Lists the definitions that can be turned with no example broken.

    slips.py [--only WORD] [--file WORD] [--from N] [--most N] [--step N] [--together N] [--folder FOLDER] CRATE
    slips.py --list .. CRATE
    slips.py --by-hand [--only WORD] [--folder FOLDER] CRATE      both need the toolchain

A slip that is made alike in a definition and in the code that is proved against it passes every proof. What guards
against it are examples whose values come from outside. In a copy of the repository this turns one thing of one
definition of crates/CRATE/specs at a time: a number by one, `<` for `<=`, `and` for `or`, true for false, a branch for
the other, an order, the first of a list for the whole, a limit before the choice, an option forgotten, a result for its
neighbour's, a letter of a text. Then it
checks the examples of the crate alone (`rt check --only examples`), some seconds for each turn. A turn that no example
refuses is shown; one that isn't well typed, or that a proof within specs/ refuses, isn't counted. The last line is
'N refused, M passed, K not read'. With --together it tries so many turns in one check, which takes a third of the time:
each turned file, with the files and the examples above it, stands beside the others under names of its own. Of a file
whose examples break under another name as it is, since their proofs name it, each turn is tried alone. It may run
for hours, and belongs to no gate. With --by-hand it tries the slips of slips.txt instead, which are made by hand.
"""
import argparse
import contextlib
import os
import re
import shutil
import subprocess
import sys
import tempfile

sys.path.append(os.path.join(os.path.dirname(__file__), "../scripts"))
import laid_down  # noqa: E402

HERE = os.path.dirname(os.path.abspath(__file__))
TOP = laid_down.TOP

# words that may stand for one another, each turned into the next one
SIBLINGS = [
    ["nat_le", "nat_lt"],
    ["&&", "||"],
    ["true", "false"],
    ["take", "drop"],
    ["list_any", "list_all"],
    ["Syntax", "Arity", "BadId", "NotInteger", "ZeroId", "Unsupported", "UnknownCommand"],
    ["SmallId", "Exhausted", "NoKey", "NoGroup", "Busy"],
    ["Small", "Exhausted"],
    ["Length", "Shape", "Limit"],
    ["Okay", "Pong"],
    ["NullBulk", "NullArray"],
    ["next_id", "previous_id"],
    ["low_end", "high_end"],
    ["zero_id", "greatest_id"],
    ["first_id", "last_id"],
    ["New", "NoAck", "History"],
    ["Passed", "Taken", "Removed"],
]
# where a word comes from that a turn brings in
HOMES = {
    "Rattle.std.specs.Prelude": [
        "nat_le", "nat_lt", "true", "false", "take", "drop", "[]", "◌&&◌", "◌||◌", "◌∷◌", "◌==◌", "◌+◌", "◌-◌", "◌++◌",
        "bytes_eq", "length", "filter", "Some", "None", "Ok", "Err", "not", "codes", "List", "ℕ", "Bool", "Result",
        "if◌then◌else◌"],
    "Rattle.std.specs.List": ["list_any", "list_all"],
    "Rattle.std.specs.Option": ["option_map_or"],
    "Rattle.std.specs.Str": ["str_eq_ignore_ascii_case"],
    "Rattle.xs_command.specs.Words": ["is_word"],
    "Rattle.xs_resp.specs.declared.fault.Fault": ["Fault"],
    "Rattle.xs_resp.specs.declared.fault.Fault.TheVariants": [
        "Syntax", "Arity", "BadId", "NotInteger", "ZeroId", "Unsupported", "UnknownCommand", "SmallId", "NoKey",
        "NoGroup", "Busy"],
    "Rattle.xs_resp.specs.declared.read_fault.Wrong.TheVariants": ["Length", "Shape", "Limit"],
    "Rattle.xs_resp.specs.declared.reply.Simple.TheVariants": ["Okay", "Pong"],
    "Rattle.xs_resp.specs.declared.reply.Reply.TheVariants": ["NullBulk", "NullArray"],
    "Rattle.xs_stream.specs.Id": ["zero_id", "greatest_id", "is_below"],
}
# what an option is before its words are read
FORGOTTEN = {"make": "true", "trim": "None", "reader": "None", "limit": "None", "block": "None", "noack": "false",
             "retry": "None", "just_id": "false", "min_idle": "0", "when": "time.Now"}
BEGINS = re.compile(r"^(?:abbrev|unfoldable) pub (\S+) *:", re.M)
STOPS = [" then ", " else ", " in ", ";", " ≡ ", " ↦ ", "\n  pub ", " ++ "]


class Turn:
    """A definition, and its file's text with one thing of it turned."""

    def __init__(self, name, shown, text):
        self.name, self.shown, self.text = name, shown, text


def definitions(text):
    """The name, the start and the end of the equations of each definition that is no type."""
    for begins in BEGINS.finditer(text):
        ends = re.search(r"\n(?:\n|--|pub |use |abbrev |unfoldable )", text[begins.end():])
        end = begins.end() + ends.start() if ends else len(text)
        equations = re.search(r"\n(?=\S)", text[begins.start():end])
        if equations:
            yield begins.group(1), begins.start() + equations.end(), end


def closing(text, start):
    """The index behind a term that starts here: its brackets close, or a word follows that ends it."""
    depth, index = 0, start
    while index < len(text):
        if text[index] in "([{":
            depth += 1
        elif text[index] in ")]}":
            depth -= 1
            if depth < 0:
                return index
        elif depth == 0 and (re.match(r"\n\S", text[index:]) or any(text.startswith(s, index) for s in STOPS)):
            return index
        index += 1
    return index


def behind(text, start, word):
    """The index behind a word at the depth of this one."""
    depth = 0
    for index in range(start, len(text)):
        depth += (text[index] in "([{") - (text[index] in ")]}")
        if depth < 0:
            return None
        if depth == 0 and re.match(rf"\s{word}\s", text[index:]):
            return index + len(word) + 2
    return None


def numbers(body):
    for found in re.finditer(r"(?<![\w.'{\"])\d+(?![\w.}\"])", body):
        value = int(found.group())
        yield found.start(), found.end(), str(value + 1)
        if value > 0:
            yield found.start(), found.end(), str(value - 1)


def siblings(body):
    for words in SIBLINGS:
        for place, word in enumerate(words):
            for found in re.finditer(rf"(?<![\w.'\"]){re.escape(word)}(?![\w'\"])", body):
                yield found.start(), found.end(), words[(place + 1) % len(words)]


def texts(body):
    for found in re.finditer(r'codes "([^"]*)"', body):
        yield found.end(1), found.end(1), "x"


def negations(body):
    for found in re.finditer(r"\bnot (?=[(\w])", body):
        yield found.start(), found.end(), ""


def orders(body):
    """Arguments, and sides of an operator, in the other order."""
    term = r"(?:\w[\w.]*|\([^()]*\))"
    for found in re.finditer(rf"\b(is_below|option_or|ordering_then|nat_cmp|is_idle|idle) ({term}) ({term})", body):
        yield found.start(), found.end(), f"{found.group(1)} {found.group(3)} {found.group(2)}"
    side = rf"{term}(?: {term})*"
    for found in re.finditer(rf"(?<= )({side}) (\+\+|-) ({side})", body):
        yield found.start(), found.end(), f"({found.group(3)}) {found.group(2)} ({found.group(1)})"
    for found in re.finditer(r"(\w+) = ([^;{}]+); (\w+) = ([^;{}]+?)(?= \}|;)", body):
        one, value, other, others = found.groups()
        yield found.start(), found.end(), f"{one} = {others}; {other} = {value}"


def branches(body):
    """A branch in the place of the other."""
    for found in re.finditer(r"\bif\s", body):
        middle = behind(body, found.end(), "then")
        last = middle and behind(body, middle, "else")
        if last:
            first = body[middle:last - 6].strip()
            end = closing(body, last)
            yield middle, last - 6, body[last:end].strip()
            yield last, end, first


def rests(body):
    """The first of a list for the whole."""
    for found in re.finditer(r" ∷ ", body):
        end = closing(body, found.end())
        if body[found.end():end].strip() != "[]":
            yield found.end(), end, "[]"


def limits(body):
    """The first of all of a list, in the place of the first of those that are chosen."""
    for found in re.finditer(r"\b(take|limited) (\w+) (?=\()", body):
        end = closing(body, found.end() + 1) + 1
        chosen = re.sub(r"(?<= )([\w.]+|\([^()]*\))(\)*)$", rf"({found.group(0)}\1)\2", body[found.end():end])
        yield found.start(), end, chosen


def forgotten(body):
    """An option that words before it have set."""
    for found in re.finditer(r"\b(\w+) = (\w+\.\w+)(?=[;, ])", body):
        if found.group(1) in FORGOTTEN:
            yield found.start(2), found.end(2), FORGOTTEN[found.group(1)]


def lacks(head, other, result, imported):
    """Whether the result names a variable of the other case's head, which this one lacks."""
    words = r"(?<![\w.])[a-z]\w*(?![\w.]*\w\.)"
    alone = set(re.findall(words, other)) - set(re.findall(words, head)) - imported
    return any(re.search(rf"(?<![\w.]){word}\b(?! = )", result) for word in alone)


def cases(body, name, imported):
    """A case's result in the place of its neighbour's, where it has all that the result names."""
    starts = [found.start() for found in re.finditer(rf"^{re.escape(name)}\b", body, re.M)] + [len(body)]
    places = [(at, at + body[at:end].find(" =") + 2, end) for at, end in zip(starts, starts[1:])]
    for (at, start, end), (place, other, last) in zip(places, places[1:]):
        result, neighbour = body[start:end].rstrip(), body[other:last].rstrip()
        if result.split() != neighbour.split():
            if not lacks(body[at:start], body[place:other], neighbour, imported):
                yield start, start + len(result), neighbour
            if not lacks(body[place:other], body[at:start], result, imported):
                yield other, other + len(neighbour), result


def with_words(text):
    """The text with an import of each word that a turn brought in."""
    head = text[:re.search(r"\n(?:abbrev|unfoldable|pub) ", text).start()]
    missing = []
    for home, words in HOMES.items():
        for word in words:
            plain = word.strip("◌").split("◌")[0]
            is_used = re.search(rf"(?<![\w.]){re.escape(plain)}(?!\w)", text[len(head):])
            is_there = re.search(rf"[{{, ]{re.escape(word)}[,}}]", head) or f" pub {word} " in text
            if is_used and not is_there:
                missing.append(f"use {home}.{{{word}}}\n")
    first = text.find("use ")
    return text[:first] + "".join(missing) + text[first:]


def turns(text, wanted):
    """Each turn of a file's definitions."""
    imported = set(re.findall(r"[\w◌]+", " ".join(re.findall(r"^use [^{\n]*(.*)", text, re.M))))
    for name, start, end in definitions(text):
        if wanted not in name:
            continue
        body, seen = text[start:end], []
        heads = {at for found in re.finditer(r"^\S.*? =(?=\s)", body, re.M) for at in range(*found.span())}
        kinds = [numbers, siblings, texts, negations, orders, branches, rests, limits, forgotten,
                 lambda whole: cases(whole, name, imported)]
        for one, other, new in (place for kind in kinds for place in kind(body)):
            if one in heads or body[one:other] == new:
                continue
            line = body[:one].rfind("\n") + 1
            turned = body[:one] + new + body[other:]
            if turned.split() in seen:
                continue
            seen.append(turned.split())
            shown = turned[line:].split("\n")[0]
            yield Turn(name, f"{body[one:other].strip()!r} is {new.strip()!r} in: {shown.strip()}",
                       with_words(text[:start] + turned + text[end:]))


def by_hand(asked):
    """The file and the slip, for each of the crate that is made by hand."""
    with open(os.path.join(HERE, "slips.txt"), encoding="utf-8") as source:
        blocks = [block.split("\n") for block in source.read().rstrip("\n").split("\n\n")]
    for lines in blocks:
        crate, file, name = lines[0].split() if not lines[0].startswith("#") else ("", "", "")
        if crate == asked.crate and asked.only in name:
            with open(os.path.join(TOP, "crates", crate, "specs", file), encoding="utf-8") as source:
                text = source.read()
            for old, new in re.findall(r"((?:^- .*\n)+)((?:^\+ .*\n)+)", "\n".join(lines[1:]) + "\n", re.M):
                old, new = (re.sub(r"^[-+] ", "", part, flags=re.M) for part in (old, new))
                if text.count(old) != 1:
                    sys.exit(f"{name}: {file} has it {text.count(old)} times: {old}")
                text = text.replace(old, new)
            yield file, Turn(name, "by hand", with_words(text))


def checked(folder):
    """What a check of the examples says."""
    told = subprocess.run(["rt", "check", "--only", "examples"], cwd=folder, capture_output=True, text=True)
    return told.stdout + told.stderr


def judge(folder, file, turn):
    """'refused', 'passed', or 'not read'."""
    path = os.path.join(folder, "specs", file)
    before = text_of(path)
    try:
        write(path, turn.text)
        said = checked(folder)
    finally:
        write(path, before)
    counts = re.search(r"^only=(\d+) proved=(\d+)", said, re.M)
    if not counts or re.search(r"^\./specs/\S+: error", said, re.M):
        return "not read"
    return "passed" if counts.group(1) == counts.group(2) else "refused"


def text_of(path):
    with open(path, encoding="utf-8") as source:
        return source.read()


def write(path, text):
    os.makedirs(os.path.dirname(path), exist_ok=True)
    with open(path, "w", encoding="utf-8") as out:
        out.write(text)


class Examples:
    """The files of a crate's specs, the examples that stand on each, and how they are written under names of a turn."""

    def __init__(self, crate):
        self.crate, self.name = crate, os.path.basename(crate)
        folder = os.path.join(crate, "specs")
        files = [file for file in os.listdir(folder) if file != "Lib.antt"]
        self.specs = {file[:-5]: text_of(os.path.join(folder, file)) for file in files}
        text = text_of(os.path.join(crate, "src", "examples.rt"))
        self.head = text[:text.index("///")]
        homes = {}
        for home, words, other in re.findall(r"^ghost use \S+\.specs\.(\w+)(?:\.\{(.*)\}| as (\w+));", self.head, re.M):
            homes.update({word.strip(): home for word in (words or other).split(",")})
        functions = re.findall(r"((?:^///.*\n)+^pub fn (\w+)\(\)\n    ensures \{ (\w+)\S* \}\n\{\}\n)", text, re.M)
        self.functions = {name: (body, homes[said]) for body, name, said in functions}
        # whether a file's examples pass when it has another name and nothing is turned
        self.passing = {}

    def above(self, file):
        """The file, and those that use it or one of these."""
        got, more = set(), {file}
        while more:
            got |= more
            more = {name for name, text in self.specs.items() if got & set(self.used(text))} - got
        return got

    def used(self, text):
        return re.findall(rf"Rattle\.{self.name}\.specs\.(\w+)", text)

    def renamed(self, text, files, turn):
        """The text with the names that these files have for a turn, a number."""
        own = lambda found: found.group(1) + found.group(2) + (f"v{turn}" if found.group(2) in files else "")
        text = re.sub(rf"(Rattle\.{self.name}\.specs\.)(\w+)", own, text)
        return text.replace(f"{self.name}.proofs.examples.", f"{self.name}.proofs.examples.v{turn}.")

    def put(self, turn, file, turned):
        """Writes the turned file and all above it, and says which examples these are."""
        files = self.above(file)
        for name in files:
            text = turned if name == file else self.specs[name]
            write(os.path.join(self.crate, "specs", f"{name}v{turn}.antt"), self.renamed(text, files, turn))
        names = [name for name, (body, home) in self.functions.items() if home in files]
        body = self.head + "\n".join(self.functions[name][0] for name in names)
        write(os.path.join(self.crate, "src", "examples", f"v{turn}.rt"), self.renamed(body, files, turn))
        for name in names:
            self.put_proofs(turn, files, name)
        return sorted(f"{name}v{turn}" for name in files), set(names)

    def put_proofs(self, turn, files, name):
        """Writes the proofs of an example."""
        proofs = os.path.join(self.crate, "proofs", "examples")
        folder = os.path.join(proofs, name)
        for file in os.listdir(folder) if os.path.isdir(folder) else []:
            text = self.renamed(text_of(os.path.join(folder, file)), files, turn)
            write(os.path.join(proofs, f"v{turn}", name, file), text)


def judge_together(examples, found):
    """The verdict of each of these turns, from one check. Where examples break as soon as a file has another name, turned
    or not, its turns are judged alone."""
    untried = sorted({file for file, _ in found} - set(examples.passing))
    texts = [(file, turned.text) for file, turned in found]
    said, names = checked_together(examples, texts + [(file, examples.specs[file[:-5]]) for file in untried])
    verdicts = [verdict_of(said, turn, wanted) for turn, wanted in enumerate(names)]
    examples.passing.update(zip(untried, (verdict == "passed" for verdict in verdicts[len(found):])))
    return [verdict if examples.passing[file] else judge(examples.crate, file, turned)
            for (file, turned), verdict in zip(found, verdicts)]


def checked_together(examples, texts):
    """What a check of all these files beside each other says, and the names of the examples of each."""
    crate = examples.crate
    kept = tempfile.mkdtemp(prefix="kept")
    parts = ["specs", "src", "proofs"]
    for part in parts:
        shutil.copytree(os.path.join(crate, part), os.path.join(kept, part))
    try:
        lib, root = os.path.join(crate, "specs", "Lib.antt"), os.path.join(crate, "src", "examples.rt")
        names = []
        for turn, (file, text) in enumerate(texts):
            files, wanted = examples.put(turn, file[:-5], text)
            write(lib, text_of(lib) + "".join(f"pub mod {name}\n" for name in files))
            write(root, text_of(root) + f"\npub mod v{turn};\n")
            names.append(wanted)
        return checked(crate), names
    finally:
        for part in parts:
            shutil.rmtree(os.path.join(crate, part))
            shutil.move(os.path.join(kept, part), os.path.join(crate, part))
        os.rmdir(kept)


def verdict_of(said, turn, wanted):
    """The verdict of a turn, where these examples were to be proved of it."""
    proved = set(re.findall(rf"^fn \w+::examples::v{turn}::(\w+): proved", said, re.M))
    if not re.search(r"^only=", said, re.M) or re.search(rf"^\./specs/\w+v{turn}\.antt\S*: error", said, re.M):
        return "not read"
    return "passed" if proved == wanted else "refused"


@contextlib.contextmanager
def copied(folder):
    """The folder, or a copy of the repository for a while."""
    if folder:
        yield folder
        return
    with laid_down.new_folder() as folder:
        laid_down.lay_down(folder)
        yield folder


def judged(crate, found, examples, asked):
    """The verdict of each."""
    if asked.list:
        return ["passed" for turn in found]
    if asked.together > 1:
        return judge_together(examples, found)
    return [judge(crate, file, turn) for file, turn in found]


def slips(crate, asked):
    """The file and the turn, for each of the crate."""
    for file in sorted(os.listdir(os.path.join(crate, "specs"))):
        if file.endswith(".antt") and not file.startswith(("Lib.", "Examples", "Played")) and asked.file in file:
            with open(os.path.join(crate, "specs", file), encoding="utf-8") as source:
                yield from ((file, turn) for turn in turns(source.read(), asked.only))


def tell(folder, asked):
    """Tries the slips that are asked for in this copy, and tells what passed."""
    counts = {"refused": 0, "passed": 0, "not read": 0}
    crate = os.path.join(folder, "crates", asked.crate)
    examples = Examples(crate)
    found = list(by_hand(asked) if asked.by_hand else slips(crate, asked))
    found = found[asked.first:asked.first + asked.most:asked.step]
    for place in range(0, len(found), asked.together):
        part = found[place:place + asked.together]
        for (file, turn), verdict in zip(part, judged(crate, part, examples, asked)):
            counts[verdict] += 1
            if verdict == "passed" or asked.by_hand and verdict != "refused":
                print(verdict + ":" if asked.by_hand else "", f"{file} {turn.name}: {turn.shown}", flush=True)
    print(f"{counts['refused']} refused, {counts['passed']} passed, {counts['not read']} not read")


def main():
    parser = argparse.ArgumentParser(description=__doc__, formatter_class=argparse.RawDescriptionHelpFormatter)
    parser.add_argument("--only", default="", help="the definitions whose names have this word")
    parser.add_argument("--file", default="", help="the files whose names have this word")
    parser.add_argument("--from", type=int, default=0, dest="first", help="how many turns to pass over")
    parser.add_argument("--most", type=int, default=10**9, help="how many turns")
    parser.add_argument("--step", type=int, default=1, help="one turn of so many")
    parser.add_argument("--together", type=int, default=1, help="so many turns in one check")
    parser.add_argument("--folder", help="a copy of the repository to work in")
    parser.add_argument("--by-hand", action="store_true", help="the slips of slips.txt")
    parser.add_argument("--list", action="store_true", help="shows the turns and tries none")
    parser.add_argument("crate")
    asked = parser.parse_args()
    if asked.list:
        tell(TOP, asked)
    else:
        with copied(asked.folder) as folder:
            tell(folder, asked)
    return 0


if __name__ == "__main__":
    sys.exit(main())
