#!/usr/bin/env python3
"""What `ubtool rehearse --script scriptN -d listN a b p` has to print, with `--given K` if choiceN has a K, read off
docs/RUNNING.md and not off its code: the listing or the refusal, and the status. STEADY is 1 for `--steady`, MOST the
number of `--failures`.
Usage: reading.py COUNT FOLDER STEADY [MOST]"""
import dataclasses
import itertools
import pathlib
import re
import sys

BUILT_IN = set("setenv run test echo true false exit".split())
FINISHES = {"final": "booted", "restart": "restarted", "halt": "halted"}
CLAUSES = {*FINISHES, "steady", "always", "needs", "normal", ":"}
# a name that `run` takes as it is
PLAIN = "[A-Za-z0-9_.][A-Za-z0-9_.-]*"
# what names a word of a call
PLACE = re.compile("@(last|0*[1-9][0-9]*)")


class Fault(Exception):
    """Why a line is refused."""


def must(hold, fault="bad line"):
    """Refuses the line, if this does not hold."""
    if not hold:
        raise Fault(fault)


@dataclasses.dataclass
class Effect:
    """What a list says of a call. A setting is a pair: `=` and a name, or an `@` and a place; and so its value."""
    finish: str = ""
    steady: bool = False
    always: str = ""
    needs: str = ""
    normal: str = ""
    sets: list = dataclasses.field(default_factory=list)


class BoardList:
    """A device list."""

    def __init__(self):
        self.calls, self.commands, self.known, self.test = {}, {}, set(), Effect()
        self.given, self.before, self.counter = {}, [], None

    def alternatives(self):
        """The values of the variables that are given: the last name changes fastest."""
        return [dict(zip(self.given, values)) for values in itertools.product(*self.given.values())]

    def read_line(self, line):
        """Takes a line, or raises its fault."""
        line = line.strip(" \t\r")
        match line.split():
            case []:
                return
            case [word, *_] if word.startswith("#"):
                return
            case ["given", word, *_] if "=" in word:
                self.read_given(re.sub("^given[ \t]+", "", line))
            case ["before", name] if "=" not in name:
                must(re.fullmatch(PLAIN, name))
                self.before.append(name)
            case ["count", counter, "limit", limit, "else", alternative]:
                must(all(re.fullmatch(PLAIN, name) for name in (counter, limit, alternative)))
                self.counter = counter, limit, alternative
            case ["call", *words] if ":" in words:
                self.read_call(re.findall("(?:[^ \t']|'[^']*(?:'|$))+", line)[1:])
            case ["absent", name] if "=" not in name:
                self.read_call([name, "**", ":", "always", "1"])
            case ["known", "env" | "itest" | "setexpr" as name]:
                self.known.add(name)
            case ["steady", "test"]:
                self.test.steady = True
            case words:
                self.read_command(words)

    def raised(self, environment, commands):
        """The environment with the raised boot counter, and the commands that run then."""
        if not self.counter:
            return environment, commands
        def number(name):
            found = re.match("0[xX]([0-9a-fA-F]+)|([0-9]+)", environment.get(name, ""))
            return (int(found[1], 16) if found[1] else int(found[2])) % 2**64 if found else 0
        def count():
            return number(counter) if number("upgrade_available") % 2**32 else 0
        counter, limit, alternative = self.counter
        environment = {**environment, counter: str((count() + 1) % 2**64)}
        beyond = 0 < number(limit) < count()
        return environment, environment.get(alternative, "").split(";") if beyond else commands

    def read_given(self, text):
        """A line `given`."""
        name, _, value = text.partition("=")
        must(name and name[0] != "-" and "'" not in name and value.count("'") % 2 == 0)
        must(not re.search("[ \t]", "".join(value.split("'")[::2])))
        values = self.given.setdefault(name, [])
        if value.replace("'", "") not in values:
            values.append(value.replace("'", ""))
            must(len(values) == 1 or len(self.alternatives()) <= 64, "more than 64 alternatives")

    def read_command(self, words):
        """A line of a command, or of its calls with one first word."""
        def begins(number):
            return len(words) >= number and "=" not in "".join(words[1:number])
        finish = FINISHES[words.pop(0)] if words[0] in FINISHES and begins(2) else ""
        steady = words[0] == "steady" and begins(2) and bool(words.pop(0))
        is_sub = words[0] == "sub" and begins(3)
        first = words.pop(2) if is_sub else ""
        name, *said = words[is_sub:]
        sets = [setting(word, 1 if is_sub else 0) for word in said]
        must(name not in BUILT_IN, "built-in command")
        effect = self.commands.setdefault((name, first), Effect())
        effect.finish = effect.finish or finish
        effect.steady |= steady
        effect.sets += sets

    def read_call(self, words):
        """A line of calls."""
        colon = words.index(":") if ":" in words else 0
        must(colon and not any("'" in word for word in words[:colon]) and "**" not in words[:colon - 1])
        effect = clauses(words[colon + 1:])
        must("*" not in words[0])
        must(words[0] not in BUILT_IN or [words[0], *words[colon + 1:]] == ["test", "normal", "1"], "built-in command")
        self.calls.setdefault(words[0], []).append((words[1:colon], effect))

    def effect_of(self, words):
        """What the list says of a call, or none."""
        for pattern, effect in self.calls.get(words[0], []):
            if fits(pattern, words[1:]):
                return dataclasses.replace(self.test, normal="1") if words[0] == "test" else effect
        whole = self.test if words[0] == "test" else self.commands.get((words[0], ""))
        return self.commands.get((words[0], words[1]), whole) if len(words) > 1 else whole


def setting(word, called):
    """A setting; `called` is 0 in the lines of a name, 1 in a `sub` line, 2 in a line of calls."""
    left, sign, value = word.partition("=")
    by_place, of_word = called and left.startswith("@"), called == 2 and value.startswith("@")
    must(sign and (called < 2 or "'" not in left and value.count("'") % 2 == 0) and (not of_word or PLACE.fullmatch(value)))
    must(PLACE.fullmatch(left) if by_place else left and left[0] != "-")
    value = value.replace("'", "") if called == 2 else value
    return left if by_place else "=" + left, value if of_word else "=" + value


def is_plain(word):
    """Whether a word may follow `needs`."""
    return word not in CLAUSES and not set("*='") & set(word)


def clauses(words):
    """What is after the colon of a line of calls."""
    effect = Effect()
    while words:
        word = words.pop(0)
        if word in FINISHES and not effect.finish:
            effect.finish = FINISHES[word]
        elif word == "steady" and not effect.steady:
            effect.steady = True
        elif word in ("always", "normal", "needs") and not getattr(effect, word):
            must(words and words[0] in {"always": "01", "normal": "1"}.get(word, words[0]))
            must(word != "needs" or is_plain(words[0]) and words[0] not in BUILT_IN)
            setattr(effect, word, words.pop(0))
            if word == "needs" and words and is_plain(words[0]):
                effect.needs += " " + words.pop(0)
        else:
            effect.sets.append(setting(word, 2))
    must(not (effect.normal and effect.always))
    return effect


def fits(pattern, words):
    """Whether the words of a call after its name fit a pattern."""
    if pattern[-1:] == ["**"]:
        pattern, words = pattern[:-1], words[:len(pattern) - 1]
    return len(pattern) == len(words) and all(
        word.startswith(part[:-1]) if part.endswith("*") else word == part for part, word in zip(pattern, words))


class Run:
    """A run on a word of outcomes, which is made longer by successes where it ends."""

    def __init__(self, board, environment, steady, word):
        self.board, self.env, self.steady, self.word = board, dict(environment), steady, word
        self.answers, self.succeeded, self.text = {}, set(), ""
        self.status, self.taken, self.unexpected, self.ending = 0, 0, 0, ""

    def of(self, commands):
        """The record of these commands."""
        first = [name for name in self.board.before if name in self.env]
        texts = (self.env[name].split(";") for name in first)
        for command in itertools.chain(itertools.chain.from_iterable(texts), commands):
            self.perform(command)
        for name in "abp":
            self.text += f"var {name}={self.env[name]}\n" if name in self.env else f"unset {name}\n"
        return f"run {self.word or '.'}\n{self.text}{self.ending or f'end {self.status}'}\n"

    def perform(self, command):
        """Does one command, if the run is not over."""
        words = re.split("[ \t]+", command.strip(" \t"))
        if words == [""] or self.ending:
            return
        if "env" in self.board.known and words[:2] == ["env", "exists"] and len(words) == 3:
            self.status = 0 if words[2] in self.env else 1
        elif re.match("[a-z]+=", words[0]):
            # (a value with an `=` that is run as a text is an assignment)
            self.status = 0
        elif effect := self.board.effect_of(words):
            self.call(effect, words)
        else:
            self.ending = f"stop unknown {words[0]}"

    def call(self, effect, words):
        """Does a call of a device command."""
        self.status = self.answer(effect, " ".join(words))
        self.text += f"dev {self.status} {' '.join(words)}\n"
        if self.status == 0:
            self.succeeded |= {words[0], " ".join(words[:2])}
            self.set_all(effect.sets, words)
            if effect.finish:
                self.ending = f"{effect.finish} {words[0]}"

    def answer(self, effect, call):
        """The answer of a call: 0 for success, 1 for failure."""
        if effect.needs and effect.needs not in self.succeeded:
            return 1
        if effect.always:
            return int(effect.always)
        stays = self.steady or effect.steady
        if stays and call in self.answers:
            return self.answers[call]
        self.word += "0" if self.taken == len(self.word) else ""
        given = int(self.word[self.taken])
        self.taken += 1
        self.unexpected += given == (0 if effect.normal else 1)
        if stays:
            self.answers[call] = given
        return given

    def set_all(self, sets, words):
        """Does what a success sets."""
        def meant(text):
            place = len(words) - 1 if text == "@last" else 0 if text[0] == "=" else int(text[1:])
            return text[1:] if text[0] == "=" else words[place] if 1 <= place < len(words) else None
        for left, right in sets:
            name, value = meant(left), meant(right)
            if None not in (name, value) and (left[0] == "=" or name and name[0] != "-" and "=" not in name):
                self.env[name] = value


def listing(board, environment, steady, most, commands):
    """All runs in which no more answers count than `most`, in the order of their words."""
    word, text = "", ""
    while True:
        run = Run(board, environment, steady, word)
        record = run.of(commands)
        if most is None or run.unexpected <= most:
            text += record
        word = run.word.rstrip("1")
        if not word:
            return text + "done"
        word = word[:-1] + "1"


def printed(folder, number, steady, most):
    """What is printed for the list with this number, or the fault for which it is refused."""
    board, faults = BoardList(), []
    lines, commands, choice = (pathlib.Path(f"{folder}/{kind}{number}").read_bytes().decode()
                               for kind in ("list", "script", "choice"))
    for at, line in enumerate(lines.split("\n"), 1):
        try:
            board.read_line(line)
        except Fault as fault:
            faults.append(f"device list line {at}: {fault}")
    # (that there are too many alternatives counts before all other faults)
    must(not faults, next((it for it in faults if it.endswith("alternatives")), *faults[:1]) if faults else "")
    all_given, choice = board.alternatives(), choice.strip()
    must(choice or len(all_given) == 1, f"the device list has {len(all_given)} alternatives: name one by --given")
    choice = choice or "1"
    must(1 <= int(choice) <= len(all_given), f"no alternative {choice}: the device list has {len(all_given)}")
    environment = {name: value for name, value in all_given[int(choice) - 1].items() if value}
    environment, texts = board.raised(environment, commands.split("\n"))
    return listing(board, environment, steady, most, texts)


def main():
    """Prints it for each list."""
    count, folder, steady, *most = sys.argv[1:]
    for number in range(1, int(count) + 1):
        try:
            said, status = printed(folder, number, steady == "1", int(most[0]) if most else None), 0
        except Fault as fault:
            said, status = f"ubtool: {fault}", 1
        print(f"== {number}\n{said}\nstatus {status}")


main()
