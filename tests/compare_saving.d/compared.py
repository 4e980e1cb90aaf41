"""What U-Boot saves from start to start, beside `ubtool boots`, as tests/compare_saving says, in a folder of its own.
Usage: compared.py UBTOOL COUNT SHELL=SANDBOX.."""
import os
import random
import re
import struct
import subprocess
import sys
import zlib
from collections import Counter
from pathlib import Path

PARTS = Path(__file__).resolve().parent
UBTOOL, COUNT = sys.argv[1], int(sys.argv[2])
SANDBOXES = [word.split("=", 1) for word in sys.argv[3:]]
# Of a script that counts without an end no more boots are followed.
BOOTS, ENDLESS = "100", "ubtool: more boots than allowed\n"
# The size of the environment, and of the card that has it at its front (compare_saving.d/sandbox.config).
SIZE, CARD = 0x2000, 1 << 20
# What the lists say of the commands of compare_saving.d/starts.c and of U-Boot's own.
LIST = "load\ndhcp\nfinal bootm\nfinal bootz\nrestart reset\nhalt poweroff\nknown env\nknown itest\nknown setexpr\n"
SAVES = "saves saveenv\ncall env save : saves\n"
COUNTER = "count bootcount limit bootlimit else altbootcmd\n"
cases = Counter()


def same(name, found, wanted):
    """Compares two texts."""
    cases["passed" if found == wanted else "failed"] += 1
    if found != wanted:
        print(f"FAILED: {name}\nwanted: {wanted}\nfound:  {found}", flush=True)


def unescaped(text):
    """The bytes that a text of ubtool, of a record or of a script stands for."""
    said = {b"n": b"\n", b"\\": b"\\"}
    return re.sub(rb"\\(n|\\|x[0-9a-f]{2})", lambda it: said.get(it[1]) or bytes([int(it[1][1:], 16)]), text.encode("latin-1"))


def escaped(value):
    """A value in a line, as ubtool writes words."""
    text = value.decode("latin-1").replace("\\", "\\\\").replace("\n", "\\n")
    return re.sub("[^!-~]", lambda it: f"\\x{ord(it[0]):02x}", text)


def shown(variables, names):
    """The values of these names that are set, in a line."""
    if variables is None:
        return "no environment"
    return " ".join(f"{name}={escaped(variables[name.encode()])}" for name in names if variables.get(name.encode()))


def entries_of(variables):
    """The entries with which U-Boot stores variables, and the byte that ends them."""
    doubled = {name: value.replace(b"\\", b"\\\\") for name, value in variables.items()}
    return b"".join(b"%s=%s\0" % entry for entry in sorted(doubled.items())) + b"\0"


def image(variables):
    """An environment as U-Boot stores it."""
    data = entries_of(variables).ljust(SIZE - 4, b"\0")
    return struct.pack("<I", zlib.crc32(data)) + data


def stored_entries():
    """The entries on the card; None if they have no end, or the checksum is wrong."""
    card = Path("card").read_bytes()[:SIZE]
    if b"\0\0" not in card[4:] or struct.unpack("<I", card[:4])[0] != zlib.crc32(card[4:]):
        return None
    return card[4 : card.index(b"\0\0", 4) + 1]


def stored():
    """The variables on the card, as U-Boot reads them: a backslash is stored as two. None if they cannot be read."""
    entries = stored_entries()
    if entries is None:
        return None
    return dict(re.sub(rb"\\(.)", rb"\1", entry, flags=re.S).split(b"=", 1) for entry in entries[:-1].split(b"\0"))


def printed():
    """The entries on the card, as `ubtool printenv` reads them."""
    Path("stored").write_bytes(Path("card").read_bytes()[:SIZE])
    return subprocess.run([UBTOOL, "printenv", "-0", "-i", "stored"], capture_output=True, check=False).stdout


class Start:
    """A start of a sandbox: the variables that it finds, the calls of device commands, and how it ends."""

    def __init__(self, sandbox):
        Path("record").unlink(missing_ok=True)
        said = subprocess.run(
            [sandbox], stdin=subprocess.DEVNULL, stdout=subprocess.PIPE, stderr=subprocess.STDOUT, check=False, timeout=60)
        lines = [said.stdout.decode("latin-1")[-300:], ""]
        if os.path.exists("record"):
            lines = Path("record").read_text(encoding="latin-1").split("\n")
        self.found = dict(unescaped(line[6:]).split(b"=", 1) for line in lines if line.startswith("found "))
        self.asked = [line for line in lines if line.startswith("dev ")]
        self.end = lines[-2]


class Board:
    """A board with a shell, as a sandbox has it and as a device list says it to ubtool."""

    def __init__(self, shell, sandbox):
        # What U-Boot sets in every start is stored from the beginning, so that it takes its room.
        self.shell, self.sandbox, self.own = shell, sandbox, {}
        self.put({"bootcmd": b"saveenv"})
        Start(sandbox)
        self.own = {name.decode(): value for name, value in (stored() or {}).items() if name != b"bootcmd"}

    def put(self, variables, lines="", fails=()):
        """Puts an environment on the card, without the variables that are None, and makes the device list: some calls fail."""
        self.start = {**self.own, **variables}
        data = image({name.encode(): value for name, value in self.start.items() if value is not None})
        Path("first").write_bytes(data)
        self.fill_card()
        Path("fails").write_text("".join(f"{words}\n" for words in fails), encoding="latin-1")
        failing = "".join(f"call {words} ** : always 1\n" for words in fails)
        Path("list").write_text(failing + LIST + lines, encoding="latin-1")
        Path("modern").unlink(missing_ok=True)
        if self.shell.startswith("modern"):
            Path("modern").touch()

    def put_filled(self, spare, variables, lines="", fails=()):
        """The same, with a variable beside these that leaves so many bytes of the environment."""
        self.put({**variables, "filling": b""}, lines, fails)
        values = {name.encode(): value for name, value in self.start.items() if value is not None}
        self.put({**variables, "filling": b"f" * (SIZE - 4 - spare - len(entries_of(values)))}, lines, fails)

    def fill_card(self):
        """Puts the environment that was put last on the card."""
        Path("card").write_bytes(Path("first").read_bytes().ljust(CARD, b"\0"))

    def compare(self, name, names, count, failures=0, beside=True, asked=None):
        """Starts the board so many times, each beside the boot that ubtool says it is, if so. What each start leaves. (It may be
        asked for other names than those that are compared.)"""
        boots, at, left = boots_of(self.shell, names if asked is None else asked, failures) if beside else "", 1, []
        if beside and isinstance(boots, str):
            same(f"{self.shell}, {name}", boots, "boots")
        for number in range(1, count + 1):
            start = Start(self.sandbox)
            left.append(shown(stored(), names))
            same(f"{self.shell}, {name}: what is printed after start {number}", printed(), stored_entries())
            if not isinstance(boots, str):
                at = self.beside(f"{self.shell}, {name}: start {number}", names, start, boots, at) or at
        return left

    def beside(self, name, names, start, boots, at):
        """Compares a start with a boot. The boot that follows, if there is one with this end."""
        first = {it.encode(): value for it, value in self.start.items() if value}
        same(f"{name} finds", shown(start.found, names), shown({**first, **boots[at - 1][0]}, names))
        # (if no text runs, the prompt comes, as after the empty text)
        end = "end 0" if start.end == "prompt" else start.end
        following = [to for ending, to in boots[at - 1][1] if ending == end]
        same(f"{name} ends", end, end if following else str(boots[at - 1][1]))
        if not following:
            return None
        same(f"{name} leaves", shown(stored(), names), shown({**first, **boots[following[0] - 1][0]}, names))
        return following[0]


def boots_of(shell, names, failures):
    """What `ubtool boots` says, or its refusal: of each boot what it finds otherwise than the first one, and how it may end, with
    the boot that follows."""
    call = [UBTOOL, "boots", "-i", "first", "-d", "list", "--shell", shell, "--failures", str(failures), "--boots", BOOTS, *names]
    done = subprocess.run(call, capture_output=True, check=False)
    if done.returncode:
        return done.stderr.decode("latin-1")
    boots, found = [], {}
    for line in done.stdout.decode("latin-1").splitlines():
        key, _, rest = line.partition(" ")
        if key == "boot":
            found = {}
            boots.append((found, []))
        elif key == "ends":
            said = re.fullmatch(r"\d+ first \S+ fewest \d+ \S+ (.*) next (\d+)", rest)
            boots[-1][1].append((said[1], int(said[2])))
            # (what the ending leaves is another matter)
            found = {}
        elif key in ("var", "unset"):
            variable, _, value = rest.partition("=")
            found[unescaped(variable)] = unescaped(value)
    return boots


class Dice:
    """Random scripts that count in saved variables."""

    names = ("left", "order", "slot", "note")
    counts = (
        'test "${left}" = 0 || setexpr left ${left} - 1', "setexpr left ${left} + 1; itest ${left} < 4 || setenv left",
        'if test "${order}" = A; then setenv order "B A"; else setenv order A; fi',
        'setenv slot "${order}"; setenv order "${note}"; setenv note "${slot}"', 'test -n "${note}" && setenv note || setenv note 1',
    )
    commands = (
        "saveenv", "saveenv", "env save", "setexpr left ${left} - 1", "setenv left 2", "setenv left", "setenv order B",
        "setenv order A", 'setenv order "B A"', "setenv slot ${order}", "setenv slot", "setenv note ${left}${slot}",
        "setenv note 'a=b c'", "setenv left ${left}", "load mmc 0:1", "dhcp", "bootm", "run step", "env delete order",
        "env set order C", "echo ${left}", "reset", "poweroff",
    )
    conditions = (
        'test "${left}" = 0', 'test -n "${left}"', 'test "${order}" = A', 'test -z "${slot}"', "load mmc 0:2", "saveenv",
        'test "${left}" -gt 1', 'test -n "${note}"', "itest ${left} == 1", "env exists slot",
    )

    def __init__(self, seed):
        self.dice = random.Random(seed)

    def command(self, depth):
        """A command of a script."""
        kind = self.dice.randrange(10 if depth < 3 else 7)
        if kind == 7:
            return f"if {self.dice.choice(self.conditions)}; then {self.some(depth + 1)}; else {self.some(depth + 1)}; fi"
        if kind == 8:
            return f"if {self.dice.choice(self.conditions)}; then {self.some(depth + 1)}; fi"
        if kind == 9:
            return f"for slot in ${{order}} D; do {self.some(depth + 1)}; done"
        return self.dice.choice(self.commands)

    def some(self, depth):
        """Some commands."""
        return "; ".join(self.command(depth) for _ in range(self.dice.randrange(1, 4)))

    def board(self):
        """The variables of a board, further lines of its list, and the calls that fail."""
        first = {name: self.dice.choice(("", "1", "2", "A", "B A")) for name in self.names}
        counted = f"{self.dice.choice(self.counts)}; {self.dice.choice(self.counts)}"
        step = self.some(1).replace("run step", self.dice.choice(self.counts))
        texts = {"bootcmd": f"{counted}; {self.dice.choice(('', self.some(1) + '; '))}saveenv; {self.some(0)}", "step": step}
        if self.dice.random() < 0.3:
            texts["preboot"] = self.some(1)
        fails = [words for words in ("load mmc 0:1", "load mmc 0:2", "dhcp", "bootm") if self.dice.random() < 0.4]
        variables = {name: value.encode() for name, value in {**first, **texts}.items() if value}
        return variables, SAVES + ("before preboot\n" if "preboot" in texts else ""), fails


def compare_random(board):
    """So many random scripts that have an end of boots, with five starts each. ubtool is asked for the names of every other
    one, and finds those of the others in the texts. Every third has an environment that is nearly full."""
    compared, seed = 0, 0
    while compared < COUNT:
        seed += 1
        variables, lines, fails = Dice(seed).board()
        if seed % 3:
            board.put(variables, lines, fails)
        else:
            board.put_filled(seed // 3 % 8, variables, lines, fails)
        if boots_of(board.shell, Dice.names, 0) != ENDLESS:
            board.compare(f"random script {seed}", Dice.names, 5, asked=Dice.names if seed % 2 else ())
            compared += 1


def compare_values(board):
    """The scripts of values.scripts: what each start leaves is said there, too."""
    text = re.sub("^#.*\n", "", Path(f"{PARTS}/values.scripts").read_text(encoding="utf-8"), flags=re.M)
    for block in re.split("\n\n+", text.strip("\n")):
        said, variables = {"alone": [], "names": [], "leaves": [], "list": [], "fails": []}, {}
        for line in block.split("\n"):
            key, _, rest = line.partition(" ")
            if key in said:
                said[key].append(rest)
            else:
                variables.update([line.split("=", 1)])
        board.put({name: unescaped(value) for name, value in variables.items()}, "\n".join([*said["list"], SAVES]), said["fails"])
        beside = not said["alone"]
        names = said["names"][0].split(" ")
        left = board.compare(f"values, {variables['bootcmd']}", names, len(said["leaves"]), beside=beside)
        same(f"{board.shell}, values, {variables['bootcmd']}: what is left", "\n".join(left), "\n".join(said["leaves"]))


def compare_slots(board):
    """RAUC's script for two slots: three boots of B, three of A, one that fills the counters and starts anew, and B again. The
    modern shell takes "${BOOT_ORDER}" as one slot, which there is not."""
    script = Path(f"{PARTS.parent}/compare_boards.d/two_slots").read_bytes()
    first = {"BOOT_ORDER": b"B A", "BOOT_A_LEFT": b"3", "BOOT_B_LEFT": b"3"}
    board.put({"bootcmd": script, "kernel_addr_r": b"0x80000", "default_bootargs": b"quiet", **first}, SAVES)
    tries = ("3 3",) * 4 if board.shell.startswith("modern") else ("3 2", "3 1", "3 0", "2 0", "1 0", "0 0", "3 3", "3 2")
    left = board.compare("two slots", ("BOOT_A_LEFT", "BOOT_B_LEFT"), len(tries))
    wanted = [f"BOOT_A_LEFT={it[0]} BOOT_B_LEFT={it[2]}" for it in tries]
    same(f"{board.shell}, two slots: what is left", "\n".join(left), "\n".join(wanted))


def compare_room(board):
    """A value that has just room, and one that has none: then `saveenv` fails, what was stored stays, and the run goes on so. (A
    backslash is stored as two, for which U-Boot counts no room, so none is here.)"""
    script = b"setenv note 'a=b c'; if saveenv; then bootm; else bootz; fi"
    for spare in range(-2, 3):
        takes = len(b"note=a=b c\0")
        board.put_filled(takes + spare, {"bootcmd": script}, SAVES)
        left = board.compare(f"{spare} bytes more than the room that a value takes", ["note"], 2)
        wanted = "note=a=b\\x20c note=a=b\\x20c" if spare >= 0 else " "
        same(f"{board.shell}, {spare} bytes more: what is left", " ".join(left), wanted)
    again = b"setenv note abc; if saveenv; then bootm; else setenv note ab; if saveenv; then bootz; else reset; fi; fi"
    for spare in range(7, 11):
        board.put_filled(spare, {"bootcmd": again}, SAVES)
        left = board.compare(f"a shorter value after one without room, in {spare} bytes", ["note"], 2)
        wanted = "note=abc note=abc" if spare >= 9 else "note=ab note=ab" if spare == 8 else " "
        same(f"{board.shell}, a shorter value in {spare} bytes: what is left", " ".join(left), wanted)


def compare_counter(board):
    """The boot counter, by the rows of counter.rows; those without `preboot` beside ubtool, too. (In a list, `before preboot` runs
    after U-Boot has counted.) So that the boots have an end, the second start gives the update up; with a limit and no `altbootcmd`
    they have none. Then a counter that has no room: it stays as it was."""
    texts = {"bootcmd": b"load ${bootcount}; bootm", "altbootcmd": b"load ${bootcount}; bootz"}
    text = {"booted bootm": "bootcmd", "booted bootz": "altbootcmd", "prompt": "none"}
    for row in Path(f"{PARTS}/counter.rows").read_text(encoding="utf-8").splitlines():
        if row.startswith("#") or not row:
            continue
        given, _, wanted = row.partition(" : ")
        upgrade, count, limit, alternative, preboot = (None if it == "-" else unescaped(it) for it in f"{given} -".split()[:5])
        values = {"upgrade_available": upgrade, "bootcount": count, "bootlimit": limit, "preboot": preboot}
        seen = f'test "${{bootcount}}" = {wanted.split(" ")[1]}'
        ends = f"load ${{bootcount}}; if {seen}; then true; else setenv upgrade_available; saveenv; fi; ".encode()
        alternative = alternative and ends + b"bootz"
        board.put({"bootcmd": ends + b"bootm", **values, "altbootcmd": alternative}, SAVES + COUNTER)
        if not preboot and (alternative or limit is None):
            board.compare(f"counter, {given}", ["bootcount"], 2)
            board.fill_card()
        start = Start(board.sandbox)
        seen = start.asked[0].split(" ")[3] if start.asked else "-"
        after = (stored() or {}).get(b"bootcount", b"-").decode("latin-1")
        same(f"{board.shell}, counter, {given}", f"{text.get(start.end, start.end)} {seen} {after}", wanted)
    board.put_filled(0, {**texts, "upgrade_available": b"1", "bootcount": b"9"}, COUNTER)
    left = board.compare("a counter that has no room", ["bootcount"], 2, 1)
    same(f"{board.shell}, a counter that has no room: what is left", " ".join(left), "bootcount=9 bootcount=9")


def compare_giedi(board):
    """A board of U-Boot's that counts, with an update in slot B: three starts of B, and from the fourth on A. Who holds its button
    in the fourth finds the arguments for tests in each later start. (Of its commands, those that starts.c has have other names.)"""
    text = Path(f"{PARTS}/giedi.env").read_text(encoding="ascii")
    for command, ours in (("usrbutton", "dhcp"), ("ext4load", "load"), ("booti ", "bootm ")):
        text = text.replace(command, ours)
    variables = dict(line.split("=", 1) for line in text.splitlines() if not line.startswith("#"))
    variables.update(partitionset_active="B", upgrade_available="1", bootcount="0")
    names = ("partitionset_active", "upgrade_available", "bootcount", "testargs")
    for fails, held in ((["dhcp"], ""), ([], " testargs=test"), (["dhcp", "bootm"], "")):
        lines = f"{SAVES}{COUNTER}call printenv ** : always 0\n"
        board.put({name: value.encode() for name, value in variables.items()}, lines, fails)
        name = f"giedi, where {' and '.join(fails) or 'nothing'} fails"
        left = board.compare(name, names, 6)
        wanted = [f"partitionset_active=B upgrade_available=1 bootcount={it}" for it in (1, 2, 3)]
        wanted += [f"partitionset_active=A upgrade_available=0 bootcount=4{held}"] * 3
        same(f"{board.shell}, {name}: what is left", "\n".join(left), "\n".join(wanted))


for name, path in SANDBOXES:
    it = Board(name, path)
    compare_random(it)
    compare_values(it)
    compare_slots(it)
    compare_room(it)
    compare_counter(it)
    compare_giedi(it)
print(f"compared with what U-Boot saves: {cases['passed']} passed, {cases['failed']} failed")
sys.exit(cases["failed"] != 0)
