"""An application with its cores fixed to the interfaces at which a plan seats them, so that a change moves nothing else."""
from collections.abc import Mapping, Sequence
import copy

from design_files import Application, application_of, tree_of
from ending import NO_WORDS, UNTOLD, Result, Stop, printable, shortened
from plan_texts import Plan, read_plan
from program import Input, answer, made
from seat_edits import SeatText
from stand_in import INTERFACES, MOST_SLOTS, SEATS, chip_with, judge_application, judge_plan
from toml_lines import TomlError, Tree, read

NOT_PINNED = 3  # the status
MOST_NAMED = 12


def named(names: Sequence[str]) -> str:
    """Some names, or the first of them and how many more there are."""
    more = f" and {len(names) - MOST_NAMED} more" if len(names) > MOST_NAMED else ""
    return ", ".join(names[:MOST_NAMED]) + more


def cores(count: int) -> str:
    return f"{count} core" if count == 1 else f"{count} cores"


def seats_wanted(app: Application, plan: Plan, free: Sequence[str]) -> dict[str, str | None]:
    """The interface of each core whose seat the plan tells, or none for one that is to be open."""
    for name in free:
        if name not in app.cores:
            known = f"the application has no core `{printable(shortened(name))}`"
            raise Stop(NO_WORDS, f"{known}: they are {named(list(app.cores))}")
    told = plan.interface_of()
    wanted: dict[str, str | None] = {name: told[name] for name in app.cores if name in told}
    if app.cores and not wanted:
        raise Stop(NOT_PINNED, "the plan seats none of the application's cores")
    wanted.update((name, None) for name in free)
    return wanted


def judge_seats(app: Application, wanted: Mapping[str, str | None]) -> None:
    """Stops where an interface would have more cores than seats, or a chip more interfaces than there may be."""
    at: dict[str, list[str]] = {}
    for core in app.cores.values():
        interface = wanted.get(core.name, core.interface)
        if interface is not None:
            at.setdefault(interface, []).append(core.name)
    for interface, names in at.items():
        if len(names) > SEATS:
            what = f"interface {interface} would have {cores(len(names))}, and has {SEATS} seats"
            raise Stop(NOT_PINNED, f"{what}: {named(names)}. --free leaves some of them open")
    if len(at) > INTERFACES:
        raise Stop(NOT_PINNED, f"the cores would be at {len(at)} interfaces, and a chip has {INTERFACES} at the most")


def with_seats(tree: Tree, wanted: Mapping[str, str | None]) -> Tree:
    """The tree of a file in which these cores are fixed or open."""
    changed = copy.deepcopy(tree)
    for core in changed["core"]:
        if core["name"] in wanted:
            core.pop("ni", None)
            if wanted[core["name"]] is not None:
                core["ni"] = wanted[core["name"]]
    return changed


def notes_on(app: Application, plan: Plan, wanted: Mapping[str, str | None]) -> str:
    """What a reader may not expect, in lines for standard error."""
    notes = []
    new = [name for name in app.cores if name not in wanted]
    gone = [seat.core for seat in plan.seats if seat.core not in app.cores]
    moved = [
        f"{core.name} from {core.interface} to {wanted[core.name]}" for core in app.cores.values()
        if core.interface is not None and wanted.get(core.name) not in (None, core.interface)
    ]
    if new:
        notes.append(f"the plan doesn't seat {cores(len(new))}, as the application has them: {named(new)}")
    if gone:
        notes.append(f"the application hasn't {cores(len(gone))} of the plan: {named(gone)}")
    if moved:
        notes.append(f"the application fixed {cores(len(moved))} elsewhere: {named(moved)}")
    return "".join(f"design: {note}\n" for note in notes) + seats_note(app, plan, wanted)


def seats_note(app: Application, plan: Plan, wanted: Mapping[str, str | None]) -> str:
    """Which cores get another seat at their interface, since fixed cores take their seats in the order of the file."""
    taken: dict[str, int] = {}
    seats = {seat.core: seat.number for seat in plan.seats}
    other = []
    for core in app.cores.values():
        interface = wanted.get(core.name, core.interface)
        if interface is not None:
            number = taken[interface] = taken.get(interface, -1) + 1
            if core.name in wanted and number != seats[core.name]:
                other.append(f"{core.name} {seats[core.name]} to {number}")
    if not other:
        return ""
    what = "another seat of its interface" if len(other) == 1 else "other seats of their interfaces"
    return f"design: {cores(len(other))} will have {what}, and other queue numbers: {named(other)}\n"


def pin(app_path: str, plan_path: str, free: Sequence[str]) -> Result:
    """The text of the application, which says the same but for the interfaces of cores."""
    app_file, plan_file = Input(app_path), Input(plan_path)
    judge_application(app_file)
    judge_plan(plan_file)
    tree = tree_of(app_file.data)
    app, plan = application_of(tree), read_plan(plan_file.data)
    wanted = seats_wanted(app, plan, free)
    judge_seats(app, wanted)
    changes = {
        number: wanted[core.name] for number, core in enumerate(app.cores.values())
        if core.name in wanted and wanted[core.name] != core.interface
    }
    text = SeatText(app_file.data).changed(changes) if changes else app_file.data.decode("utf-8")
    judge_result(text, with_seats(tree, wanted))
    return Result(text, 0, notes_on(app, plan, wanted))


def judge_result(text: str, wanted: Tree) -> None:
    """Stops where the text doesn't say what is wanted, or `aeth` refuses it."""
    try:
        is_so = read(text.encode())[0] == wanted
    except TomlError:
        is_so = False
    interfaces = [core["ni"] for core in wanted["core"] if "ni" in core]
    if not is_so or answer("app", chip_with(interfaces, MOST_SLOTS, INTERFACES), made("app", text)).status:
        raise Stop(UNTOLD, "the application can't be changed in its own text")
