"""The rehearsal beside sandboxes of U-Boot, as tests/compare_hush says, in a folder of its own.
Usage: compared.py UBTOOL SANDBOX-2023.01|'' SANDBOX-2025.01|''"""
import functools
import os
import re
import struct
import subprocess
import sys
import zlib
from collections import Counter
from pathlib import Path

PARTS = Path(__file__).resolve().parent
REPOSITORY = PARTS.parent.parent
TABLE = Path(f"{REPOSITORY}/docs/COMPATIBILITY.md").read_text(encoding="utf-8")
UBTOOL, SANDBOXES = sys.argv[1], {"2023.01": sys.argv[2], "2025.01": sys.argv[3]}
DEVICES, LIST = "6", "load\ndhcp\nknown env\nknown itest\nknown setexpr\n"
FAILURES = range(3)
# Reasons to stop that the two listings show by themselves.
UNKNOWN, BROKEN = "a command that is not listed", "a fault after which the shell reads address 0"
# With UBTOOL_WRITE=1 the figures that were counted are written into the pages.
WRITES = os.environ.get("UBTOOL_WRITE") == "1"
cases = Counter()


def same(name, found, wanted):
    """Compares two texts, apart from line ends after them."""
    found, wanted = found.rstrip("\n"), wanted.rstrip("\n")
    cases["passed" if found == wanted else "failed"] += 1
    if found != wanted:
        print(f"FAILED: {name}\nwanted: {wanted}\nfound:  {found}", flush=True)


def holds(name, is_so):
    """It has to be so."""
    same(name, str(bool(is_so)), "True")


def figure(name, counted):
    """The pages have this figure as it was counted; with UBTOOL_WRITE=1 it is written."""
    call = [f"{REPOSITORY}/tools/figures", "--check", f"{name}=-"]
    same(f"the figure {name}", subprocess.run(call, input=counted, stdout=subprocess.PIPE, encoding="utf-8", check=False).stdout, "")


def unescaped(text):
    """The bytes of a text, as `printf '%b'` reads it."""
    said = {b"n": b"\n", b"\\": b"\\"}
    return re.sub(rb"\\(n|\\|x[0-9a-fA-F]{2})", lambda it: said.get(it[1]) or bytes([int(it[1][1:], 16)]), text.encode())


class Script:
    """A script: its lines, its variables, the kind of its image, its files and lines of its device list, and for each shell the row
    that is named and the lines that are said; why a rehearsal by a shell of U-Boot stops; and what ubtool lists of it, without
    --failures and with so many."""

    def __init__(self, number, lines):
        self.number, self.block, self.kind, self.entries = number, "\n".join(lines), "image", b""
        self.files, self.devices = {}, ""
        self.row, self.said, self.varies, self.reason = {}, {"2023.01": "", "modern": ""}, False, ""
        for line in lines:
            self.takes(line)
        self.ours, self.few = "", []

    def takes(self, line):
        """Takes a line of the block in."""
        if line == "imported":
            self.kind = "imported"
        elif line.startswith("stops: "):
            self.reason = line[7:]
        elif line.startswith("device: "):
            self.devices += f"{line[8:]}\n"
        elif found := re.match("file ([^=]+)=(.*)", line):
            self.files[found[1]] = unescaped(found[2])
        elif line == "modern differs: likewise":
            self.row["modern"], self.said["modern"] = self.row["2023.01"], self.said["2023.01"]
        elif found := re.match(r"(modern (?:differs|varies)|differs): (.*)", line):
            self.row["modern" if line.startswith("modern") else "2023.01"] = found[2]
            self.varies |= found[1] == "modern varies"
        elif line[:3] in ("<< ", ">> "):
            self.said["modern"] += f"{line[1:]}\n"
        elif line[:2] in ("< ", "> "):
            self.said["2023.01"] += f"{line}\n"
        else:
            self.entries += unescaped(line) + b"\0"

    def write(self):
        """Writes its image, and the one that a board stores, with backslashes doubled; U-Boot imports `imported` itself. Then its
        device list and its files, if it has lines of them."""
        stored = self.entries if self.kind == "imported" else self.entries.replace(b"\\", b"\\\\")
        for kind, data in (self.kind, self.entries + b"\0"), ("stored", stored + b"\0"):
            Path(f"{self.number}.{kind}").write_bytes(struct.pack("<I", zlib.crc32(data)) + data)
        if self.devices:
            Path(f"{self.number}.devices").write_text(self.devices + LIST, encoding="utf-8")
            os.mkdir(f"{self.number}.files")
        for name, text in self.files.items():
            Path(f"{self.number}.files/{name}").write_bytes(text)


def rehearsed(image, *words):
    """What ubtool lists of an image, by the device list and the files of its number, if it has them."""
    Path("config").write_text(f"{image} 0 {os.path.getsize(image):x}\n", encoding="utf-8")
    own = image.rpartition(".")[0]
    given = [f"{own}.devices", "--files", f"{own}.files"] if os.path.exists(f"{own}.devices") else ["devices"]
    call = [UBTOOL, "rehearse", "-c", "config", "--devices", DEVICES, *words, "-d", *given]
    return subprocess.run(call, stdout=subprocess.PIPE, stderr=subprocess.STDOUT, check=False).stdout.decode("latin-1")


def take_scripts():
    """All scripts of all files, numbered from 1, with what ubtool lists of them."""
    texts = [re.sub("^#.*\n", "", file.read_text(encoding="utf-8"), flags=re.M) for file in sorted(PARTS.glob("*.scripts"))]
    blocks = [block.split("\n") for text in texts for block in re.split("\n\n+", text.strip("\n"))]
    scripts = [Script(number, lines) for number, lines in enumerate(blocks, 1)]
    for it in scripts:
        it.write()
        image = f"{it.number}.{it.kind}"
        it.ours = rehearsed(image)
        it.few = [rehearsed(image, "--failures", str(most)) for most in FAILURES]
    return scripts


def run_shell(folder, version, shell, count):
    """Runs so many images of a folder in a sandbox."""
    call = [SANDBOXES[version], "-c", f"scripted {count} {DEVICES} {shell} devices"]
    said = subprocess.run(call, cwd=folder, stdin=subprocess.DEVNULL, stdout=subprocess.PIPE, stderr=subprocess.STDOUT, check=False)
    if said.returncode:
        same(f"the sandbox, {version}, {shell}", said.stdout.decode("latin-1")[-300:], "its listings")


def run_scripts(folder, version, shell, scripts):
    """Runs all scripts in a sandbox, in a folder of its own."""
    os.mkdir(folder)
    for name in os.listdir():
        if re.match("[0-9]+[.][a-z]", name):
            os.symlink(f"../{name}", f"{folder}/{name}")
    run_shell(folder, version, shell, len(scripts))


@functools.cache
def theirs(folder, number, kind="theirs"):
    """What a sandbox lists of a script."""
    path = Path(f"{folder}/{number}.{kind}")
    return path.read_text(encoding="latin-1") if path.exists() else ""


def differences(first, second):
    """The lines that the one text or the other has alone, as `diff` writes them."""
    if first == second:
        return ""
    Path("second").write_text(second, encoding="latin-1")
    said = subprocess.run(["diff", "-", "second"], input=first, stdout=subprocess.PIPE, encoding="latin-1", check=False).stdout
    return "".join(f"{it}\n" for it in said.split("\n") if it[:1] in ("<", ">"))


def judge(script, shell):
    """The two listings are alike, or differ as is said, and then in the way of a row of the table."""
    listed, row, name = theirs(shell, script.number), script.row.get(shell), f"{shell}: {script.block}"
    found = differences(script.ours, listed)
    # (of a listing that varies it is said only that it differs)
    said = found if shell == "modern" and script.varies else script.said[shell]
    same(f"{name}, ubtool < and U-Boot >", ("" if listed else "no listing\n") + found, said)
    if said or row is not None:
        holds(f"{name}, a difference and its row", said and row is not None and f"| {row} |" in TABLE)


def rows(column):
    """The names of the table's rows, and what their column says."""
    part = re.search(r"^## Boot scripts.*?\n(.*?)(?:^## |\Z)", TABLE, re.M | re.S)[1]
    lines = [re.split(" *[|] *", it.replace("\\|", "\1")) for it in part.split("\n") if it.startswith("| ")][1:]
    return [(it[6], it[column - 1]) for it in lines]


def compare(scripts, shell, column):
    """The listings of a shell beside those of ubtool, and the column of the table: a row says `as ubtool` if and only if no
    script shows a difference under its name. Then the number of scripts that are alike."""
    for it in scripts:
        judge(it, shell)
    shown = [it.row[shell] for it in scripts if shell in it.row]
    for row, text in rows(column):
        same(f"the row {row} for {shell}", "shown by a script" if row in shown else "as ubtool",
             text if text == "as ubtool" else "shown by a script")
    alike = len(scripts) - len(shown)
    figure(f"alike-{shell}", f"{alike} of {len(scripts)}")
    print(f"compared with U-Boot's shell, {shell}: {alike} scripts alike, {len(shown)} that differ", flush=True)


def few(most, listing):
    """The runs of a listing in which at most so many device commands fail, and its last line."""
    parts = re.split("^(?=run |done$)", listing, flags=re.M)
    return "".join(it for it in parts if it[:4] == "done" or it[:4] == "run " and it.split()[1].count("1") <= most)


def compare_few(scripts, shell):
    """ubtool's listings with --failures beside the runs of a shell's listings in which so few fail."""
    alike = [it for it in scripts if it.ours == theirs(shell, it.number) and not re.search(" normal 1|^or call", it.devices, re.M)]
    for it in alike:
        for most in FAILURES:
            same(f"--failures {most}, {shell}: {it.block}", differences(few(most, theirs(shell, it.number)), it.few[most]), "")
    print(f"compared with U-Boot's shell, {shell}: {len(alike)} scripts with few failures", flush=True)


def compare_old(scripts):
    """The old shell of 2025.01 lists a script as 2023.01 does; or else as the modern shell does, with `end` for `prompt`; or else
    as ubtool does, but for the status at the end. The page says how many it does not list as 2023.01 does."""
    like = 0
    for it in scripts:
        before, old, modern = (theirs(folder, it.number) for folder in ("2023.01", "old", "modern"))
        like += old == before
        if old not in (before, re.sub("^prompt ", "end ", modern, flags=re.M)):
            ours, found = (re.sub("^end .*", "end", text, flags=re.M) for text in (it.ours, old))
            if ours != found:
                same(f"the old shell of 2025.01: {it.block}", differences(before, old), "")
    count = len(scripts)
    figure("old-that-differ", f"{count - like} of {count}")
    print(f"compared with 2023.01, the old shell of 2025.01: {like} scripts alike, {count - like} that differ", flush=True)


def runs_of(listing):
    """Of each run of a listing its lines, those of device commands among them, and the last one."""
    records = re.findall("^run .*(?:\n(?!run |done$).+)*", listing, re.M)
    return [(it, re.findall("^dev .*", it, re.M), it.rpartition("\n")[2]) for it in records]


def beside(ours, their):
    """`same` if both have the same runs; `stops` if each run of ours is one of theirs, or stops and has asked what one of theirs
    asks first, and one stops; else the first run that is neither, or that there is no run for some of theirs."""
    ours, their = runs_of(ours), runs_of(their)
    records, stopped = {record for record, *_ in their}, False
    for record, asked, last in ours:
        stops = re.match(r"stop un(supported|known) ", last)
        stopped = stopped or bool(stops)
        if record not in records and not (stops and any(it[: len(asked)] == asked for _, it, _ in their)):
            return record
    return "stops" if stopped else "same" if len(ours) == len(their) else f"{len(ours)} runs and {len(their)}"


def with_shell(shell, folder, count, kind="scripts"):
    """How ubtool's listings with --shell are beside those of the shell's sandbox, without messages: a verdict for each number, and
    why it stops, as far as the listings show it; and how many are the same and stop. After `exit` in `bootcmd` the modern shell lists `prompt` for
    `end`. Where it gives up it lists `panic`, without the name of the text."""
    verdicts, reasons = [], []
    for number in range(1, count + 1):
        image = f"{folder if folder.startswith('random.') else '.'}/{number}.stored"
        their = re.sub("^prompt ", "end ", theirs(folder, number, "echoed"), flags=re.M)
        ours = re.sub("^stop panic .*", "panic", rehearsed(image, "--shell", shell), flags=re.M)
        verdicts.append(beside(ours, their))
        reasons.append(UNKNOWN if "\nstop unknown " in ours else BROKEN if "\nbroken\n" in their else "")
        if verdicts[-1] not in ("same", "stops"):
            entries = Path(image).read_bytes()[4:].replace(b"\0", b"\n").decode("latin-1")
            same(f"with --shell {shell}: {entries}", verdicts[-1], "")
    alike, stops = verdicts.count("same"), verdicts.count("stops")
    print(f"compared with --shell {shell}: {alike} {kind} the same, {stops} that stop", flush=True)
    return verdicts, reasons, alike, stops


def told_reasons(shell):
    """How many scripts the page says that a shell stops at, by the reason."""
    part = re.search(r"^<!-- figure stops .*?-->\n(.*?)\n<!-- end", TABLE, re.M | re.S)[1]
    head, _, *lines = [re.split(" *[|] *", it.replace("\\|", "\1")) for it in part.split("\n")]
    counts = {it[1].replace("\1", "|"): it[head.index(f"`{shell}`")] for it in lines}
    return {reason: int(count) for reason, count in counts.items() if count}


def compare_shell(shell, folder, scripts):
    """All scripts with --shell, and what the page says of how many are the same, and how many stop, and why."""
    verdicts, reasons, alike, stops = with_shell(shell, folder, len(scripts))
    found = Counter(shown or it.reason for it, verdict, shown in zip(scripts, verdicts, reasons) if verdict == "stops")
    if not WRITES:
        same(f"why --shell {shell} stops", str(sorted(found.items())), str(sorted(told_reasons(shell).items())))
    figure(f"shell-{shell}", f"{alike} of {alike + stops} | {stops}")
    return verdicts, found


def table_of_stops(*stops):
    """The table of what is not followed, of how many scripts each shell stops at by the reason; the most come first."""
    yield "| What is not followed | `old-2023.01` | `old-2025.01` | `modern-2025.01` |\n|---|---|---|---|"
    for reason in sorted(set().union(*stops), key=lambda it: (-sum(stop[it] for stop in stops), it)):
        yield "| " + reason.replace("|", "\\|") + "".join(f" | {stop[reason]}" if stop[reason] else " |" for stop in stops) + " |"


def compare_column(scripts, verdicts):
    """What the page says of --shell for each row is what its scripts did."""
    says = {(True, True): "follows or stops", (True, False): "follows", (False, True): "stops", (False, False): "same"}
    for row, text in rows(3):
        found = {verdict for it, verdict in zip(scripts, verdicts) if it.row.get("2023.01", "") == row}
        if text != "as without it":
            same(f"--shell for the row {row}", text, says["same" in found, "stops" in found])


def compare_random(shell, version, kind):
    """Random scripts with --shell beside the sandbox of that shell; of one in five all runs are the same."""
    count, folder = os.environ.get("UBTOOL_RANDOM", "800"), f"random.{shell}"
    os.mkdir(folder)
    subprocess.run([f"{PARTS}/random_scripts", count, os.environ.get("UBTOOL_SEED", "1")], cwd=folder, check=True)
    run_shell(folder, version, kind, count)
    _, _, alike, _ = with_shell(shell, folder, int(count), "random scripts")
    holds(f"--shell {shell}: {alike} of {count} random scripts the same", 5 * alike >= int(count))


def main():
    """Compares what the sandboxes that are there can show."""
    Path("devices").write_text(LIST, encoding="utf-8")
    scripts = take_scripts()
    if SANDBOXES["2023.01"]:
        run_scripts("2023.01", "2023.01", "old", scripts)
        compare(scripts, "2023.01", 4)
        compare_few(scripts, "2023.01")
        verdicts, stops = compare_shell("old-2023.01", "2023.01", scripts)
        compare_column(scripts, verdicts)
        compare_random("old-2023.01", "2023.01", "old")
    if SANDBOXES["2025.01"]:
        run_scripts("modern", "2025.01", "modern", scripts)
        compare(scripts, "modern", 5)
        compare_few(scripts, "modern")
        compare_random("old-2025.01", "2025.01", "old")
        _, modern_stops = compare_shell("modern-2025.01", "modern", scripts)
        compare_random("modern-2025.01", "2025.01", "modern")
    if all(SANDBOXES.values()):
        run_scripts("old", "2025.01", "old", scripts)
        compare_old(scripts)
        _, new_stops = compare_shell("old-2025.01", "old", scripts)
        figure("stops", "\n".join(table_of_stops(stops, new_stops, modern_stops)))
    # Each row is shown by a difference from a shell.
    shown = {row for it in scripts for row in it.row.values()}
    for row, _ in rows(7):
        holds(f"a script shows the row {row}", row in shown)
    figure("scripts", str(len(scripts)))
    print(f"compared with U-Boot's shells: {cases['passed']} passed, {cases['failed']} failed")
    return 1 if cases["failed"] else 0


if __name__ == "__main__":
    sys.exit(main())
