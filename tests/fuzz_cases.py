"""Owns what the fuzzer tries: a row for each command of `design` and `draw`, of which each case is made by chance.

A new command is a new row of COMMANDS, and where it takes words of a new kind a row of WORDS.
"""
from dataclasses import dataclass, field
from pathlib import Path
from random import Random

from fuzz_answers import program
from turned import HOSTILE, WAYS, odd_path, random_design, turned

EXAMPLES = Path(__file__).resolve().parent.parent / "examples"
BASES = (("pair", "one"), ("pair", "two"), ("pair", "roll"), ("wide", "one"), ("torus", "camera"))
# The kinds of files, and what a file of each kind is where a design has none of its own.
KINDS = {
    "chip": b"", "app": b"", "plan": b"", "words": b"connection,side,cycle,value\n", "receivers": b"connection,side,cycle,pull\n",
    "switches": b"cycle,use,drain\n", "log": b"cycle,link,header,first,second\n", "cert": b"explain 1\nend\n",
    "later_app": b"", "later_plan": b"", "flows": (EXAMPLES / "camera.flows.csv").read_bytes(), "seats": (EXAMPLES / "camera.seats.csv").read_bytes(),
}
# The kinds of words. Those of a name in NAMES are names of the application, or made of them.
WORDS = {
    "CYCLES": ("1", "24", "300", "1000"), "SIZE": ("1", "2", "3", "8", "64", "65", "0"), "SLOTS": ("1", "128", "129", "0"),
    "DELAY": ("1", "4", "5"), "ROUTERS": ("r0", "r0,r1,r1"), "KIND": ("periodic", "greedy", "random"), "SEED": ("0", "7"),
    "LOAD": ("0", "1", "100", "250"), "DRAIN": ("0", "64", "1000000"), "TABLES": ("8", "4,16", "65"), "DETOURS": ("0", "0,4"),
    "COSTS": ("hops", "hops,pressure"), "SIDE": ("fwd", "back"), "PLACE": ("1", "2"), "NUMBER": ("1", "8", "9"),
    "LIST": ("0", "0,4", "-"), "LOOKUP": ("headers", "tables"), "CLOCK": ("500MHz", "1 GHz", "66.6666MHz", "3Hz"), "BYTES": ("4B", "32b", "1000B", "1b"),
    "SMOOTH": ("record,play", "play,record,play"), "DETOUR": ("0", "4"), "COST": ("hops", "pressure"), "TABLE": ("channels", "links", "switches"),
    "CORE": ("cpu", "k0", "mem"), "FOLDER": ("made", "made/below", "chip.toml", "/proc/none"),
}
NAMES = {
    "USE": lambda uses, connections: uses,
    "CONNECTION": lambda uses, connections: connections,
    "STALL": lambda uses, connections: [f"{connections[0]},fwd,5", f"{connections[0]},back,1000000"],
    "CHAIN": lambda uses, connections: [f"{connections[0]}:fwd:3,{connections[0]}:back"],
}
LOOSE = {"CORE", "ODD", "SIZE", "SLOTS", "DELAY", "ROUTERS", "CONNECTION", "SIDE", "PLACE", "CLOCK", "FOLDER", "TABLE"}  # that may be wrong for a script
RUN = "chip app plan words receivers switches CYCLES"
UNITS = ("--clock CLOCK", "--clock CLOCK =--word BYTES")
DESIGN = ("app chip app",)
PLANNED = ("app chip app", "check chip app plan")


@dataclass(frozen=True)
class Command:
    """A command of a script. A form is its words: the kind of a file, in capitals the kind of a word, or behind `=` the word
    itself. Options are words that may follow, each with its own. `judged` are the calls of `aeth` whose refusal it passes on
    where the case has their words. `makes` is what its text is: a picture, a chip or an application (`app`)."""

    script: str
    name: str
    forms: tuple[str, ...]
    options: tuple[str, ...] = ()
    judged: tuple[str, ...] = DESIGN
    makes: str = ""
    says_more: bool = False  # behind the lines of `aeth`

    @property
    def title(self) -> str:
        return f"{self.script}:{self.name}"


COMMANDS = (
    Command(
        "design", "chip", ("=mesh SIZE SIZE", "=torus SIZE SIZE", "=ring SIZE", "=tree SIZE SIZE", "ODD SIZE"),
        ("--slots SLOTS", "--delay DELAY", "--at ROUTERS"), (), "chip",
    ),
    Command(
        "design", "words", ("chip app USE CYCLES", "chip app switches CYCLES"),
        ("--plan plan", "--kind KIND", "--seed SEED", "--load LOAD"), PLANNED,
    ),
    Command("design", "receivers", ("chip app USE CYCLES", "chip app switches CYCLES"), ("--late", "--stall STALL")),
    Command(
        "design", "switches", ("chip app CYCLES USE", "chip app CYCLES USE USE", "chip app CYCLES USE USE USE"),
        ("--plan plan", "--drain DRAIN"), PLANNED,
    ),
    Command(
        "design", "app", ("flows =--clock CLOCK",),
        ("--seats seats", "--chip chip", "--word BYTES", "--smooth SMOOTH", "--detour DETOUR", "--cost COST"), ("chip chip",), "app",
    ),
    Command("design", "fit", ("chip app =--slots TABLES",), ("--detours DETOURS", "--costs COSTS", *UNITS)),
    Command("design", "rtl", ("chip app plan =--to FOLDER",), ("--routers LOOKUP",), PLANNED),
    Command("design", "pin", ("app plan", "app later_plan"), ("--free CORE",), ()),
    Command(
        "design", "diff", ("chip app plan later_app later_plan",), (),
        ("check chip app plan", "check chip later_app later_plan"), says_more=True,
    ),
    Command(
        "design", "drain", ("chip app plan USE USE", "chip app plan USE USE =--words words =--at CYCLES"),
        ("--receivers receivers", "--evenly"), ("tables chip app plan USE",),
    ),
    Command("design", "load", ("chip app plan", "chip app plan USE"), (), ("tables chip app plan USE", "check chip app plan")),
    Command("design", "where", (
        "=chip chip", "=app chip app", "=allocate chip app", "=check chip app plan", "=explain chip app", "=explain chip app cert",
        "=tables chip app plan USE", "=route-tables chip app plan USE", f"=simulate {RUN}", f"=links {RUN}",
        "=audit chip app plan switches log CYCLES", "=chain chip app plan USE CHAIN words receivers CYCLES",
        "=slots NUMBER NUMBER NUMBER LIST", "=server NUMBER NUMBER NUMBER LIST", "=demo ODD", "ODD chip",
    ), (), ()),
    Command(
        "draw", "plan", ("chip app plan USE", "chip app plan USE", "chip app plan USE CONNECTION", "chip app plan USE CONNECTION SIDE"),
        UNITS, ("tables chip app plan USE",), "picture",
    ),
    Command("draw", "run", (RUN, RUN, f"{RUN} CONNECTION", f"{RUN} CONNECTION SIDE"), UNITS, (f"simulate {RUN}",), "picture"),
    Command("draw", "report", ("chip app plan", RUN), (*UNITS, "--csv TABLE", "--json"), (*PLANNED[1:], f"simulate {RUN}")),
    Command("draw", "play", ("chip app plan",), (), PLANNED[1:]),  # (where another word would be one of the next row)
    Command(
        "draw", "play", ("chip app plan USE", RUN), UNITS, ("app chip app", "tables chip app plan USE", f"simulate {RUN}"),
    ),
    Command("draw", "refusal", ("chip app", "chip app PLACE"), UNITS, ("explain chip app",), "picture"),
    Command(
        "draw", "diff", ("chip app plan later_app later_plan", "chip app plan later_app later_plan USE"), (),
        ("check chip app plan", "check chip later_app later_plan"), "picture", says_more=True,
    ),
    Command("draw", "wave", (RUN,), (), (f"links {RUN}",)),
)


@dataclass
class Case:
    """A command with its words, and the folder in which its files stand."""

    command: Command
    folder: Path
    files: dict[str, bytes]  # the text of each kind
    words: list[str] = field(default_factory=list)  # behind the name of the command
    given: dict[str, str] = field(default_factory=dict)  # the path of each file, and the first word of each kind
    is_odd: bool = False  # some word of it may be one that the script doesn't allow
    is_short: bool = False  # a word is missing

    def judging(self) -> list[list[str]]:
        """The words with which `aeth` judges the files before the script does anything with them."""
        calls = [call.split(" ") for call in self.command.judged]
        return [[name, *(self.given[kind] for kind in kinds)] for name, *kinds in calls if set(kinds) <= set(self.given)]


def bases() -> list[dict[str, bytes]]:
    """Designs that are right, each with its files."""
    found = []
    for chip, app in BASES:
        files = {**KINDS, "chip": (EXAMPLES / f"{chip}.toml").read_bytes(), "app": (EXAMPLES / f"{app}.toml").read_bytes()}
        for kind in ("words", "receivers", "switches"):
            trace = EXAMPLES / f"{'one' if app == 'one' else 'two'}.{kind}.csv"
            if app != "camera" and trace.exists():
                files[kind] = trace.read_bytes()
        if app == "one":
            files["log"] = (EXAMPLES / "one.links.csv").read_bytes()
        for kind, name in (("plan", "allocate"), ("cert", "explain")):
            files[kind] = program([name, str(EXAMPLES / f"{chip}.toml"), str(EXAMPLES / f"{app}.toml")]).out
        if app == "camera":
            files["switches"] += b"0,record,0\n500,play,64\n"
            files["words"] += b"".join(b"cam_isp,fwd,%d,%d\n" % (cycle, cycle) for cycle in range(0, 900, 9))
        found.append(files)
    return found


def names_in(app: bytes, key: str) -> list[str]:
    """The names that stand behind a key, as far as a text that may be broken tells them."""
    parts = app.decode("utf-8", "replace").split(key)[1:]
    return [part.split('name = "', 1)[1].split('"')[0][:40] for part in parts if 'name = "' in part] or ["none"]


def traces_of(app: bytes, chance: Random) -> dict[str, bytes]:
    """Traces for a design of chance."""
    connections, uses = names_in(app, "[[connection]]"), names_in(app, "[[use]]")
    cycles = sorted(chance.randrange(300) for _ in range(chance.randrange(20)))
    rows = [f"{chance.choice(connections)},{chance.choice(('fwd', 'back'))},{cycle}" for cycle in cycles]
    pulls, words = (
        "".join(f"{row},{chance.choice((0, 1, 2, 255))}\n" for row in rows[::3]), "".join(f"{row},7\n" for row in rows))
    switches = "".join(
        f"{place * 60},{chance.choice(uses)},{chance.choice((0, 0, 9)) if place else 0}\n" for place in range(chance.randrange(1, 5)))
    return {kind: KINDS[kind] + text.encode() for kind, text in (("words", words), ("receivers", pulls), ("switches", switches))}


def files_of(chance: Random, known: list[dict[str, bytes]]) -> dict[str, bytes]:
    """The files of a case before they are turned."""
    if chance.randrange(5) < 2:
        chip, app = random_design(chance)
        return {**KINDS, "chip": chip, "app": app, "later_app": app, **traces_of(app, chance)}
    found = chance.choice(known)
    return {**found, "later_app": found["app"], "later_plan": found["plan"]}


def put(case: Case, chance: Random, kinds: list[str], known: list[dict[str, bytes]]) -> None:
    """Turns some of the files, and writes all of them."""
    texts = [text for files in known for text in files.values()]
    for kind in chance.sample(kinds, k=min(len(kinds), chance.choice((0, 1, 1, 1, 2)))):
        case.files[kind] = turned(case.files[kind], chance.choice(list(WAYS)), chance, texts)
    for kind in kinds:
        path = case.folder / (f"{kind}.toml" if kind in ("chip", "app") else f"{kind}.csv")
        path.write_bytes(case.files[kind])
        case.given[kind] = str(path)
    for plan, app in (("plan", "app"), ("later_plan", "later_app")):
        if plan in kinds and chance.randrange(8):
            put_plan(case, chance, plan, app, texts)
    if kinds and not chance.randrange(16):
        case.given[chance.choice(kinds)] = odd_path(case.folder, chance)


def put_plan(case: Case, chance: Random, kind: str, app: str, texts: list[bytes]) -> None:
    """Writes the plan of an application, where everything is granted; some are turned."""
    chip = case.folder / "chip.toml"
    chip.write_bytes(case.files["chip"])
    plan = program(["allocate", str(chip), case.given.get(app, case.given["app"])]).out
    if plan:
        case.files[kind] = plan if chance.randrange(4) else turned(plan, chance.choice(list(WAYS)), chance, texts)
        Path(case.given[kind]).write_bytes(case.files[kind])


def odd_word(chance: Random) -> str:
    return chance.choice(HOSTILE).decode().replace("\x00", "") or "x"


def word(case: Case, chance: Random, kind: str) -> str:
    """A word of a kind, or the path of a file. It is right mostly."""
    if kind.startswith("="):
        return kind[1:]
    if kind in KINDS:
        return case.given[kind]
    case.is_odd |= kind in LOOSE
    if kind == "ODD" or not chance.randrange(12):
        case.is_odd = True
        chosen = odd_word(chance)
    else:
        names = [names_in(case.files["app"], key) for key in ("[[use]]", "[[connection]]")]
        chosen = chance.choice(NAMES[kind](*names) if kind in NAMES else WORDS[kind])
    case.given.setdefault(kind, chosen)
    return chosen


def made(command: Command, number: int, seed: int, folder: Path, known: list[dict[str, bytes]]) -> Case:
    """A case of a number, which a seed decides."""
    chance = Random(f"{seed} {command.title} {number}")
    case = Case(command, folder, files_of(chance, known))
    form = chance.choice(command.forms).split(" ")
    options = [option.split(" ") for option in command.options if not chance.randrange(3)]
    all_kinds = [*form, *(kind for _, *kinds in options for kind in kinds)]
    put(case, chance, [kind for kind in KINDS if kind in all_kinds], known)
    case.words = [word(case, chance, kind) for kind in form]
    more = [name if not place else word(case, chance, name) for option in options for place, name in enumerate(option)]
    if command.options and not chance.randrange(25):
        case.is_odd = True
        more.insert(chance.randrange(len(more) + 1), odd_word(chance))
    case.words += more
    if case.words and not chance.randrange(30):
        case.is_odd = case.is_short = True
        del case.words[chance.randrange(len(case.words))]
    return case
