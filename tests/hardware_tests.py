"""Tests of the modules in rtl/ and of `./design rtl` and `./design cosim`: the hardware of each example does what `aeth`
says, each fault of a module is told, and the modules are as simulators and a synthesizer wish them.

They need the Debian packages iverilog, verilator, g++, make and yosys. As root they are installed where they are missing;
where they can't be had the tests fail.
"""
import os
import re
import shutil
import signal
import subprocess
import sys
import time
import tomllib
import unittest

from draw_wave_tests import Dump
from hardware_faults import APP, CHIP, CYCLES, FAULTS, RECEIVERS, SWITCHES, words
from home import Home, PROGRAM, TOP

sys.path.append(str(TOP / "bench"))
import hardware  # noqa: E402: its folder is told above

PROGRAMS = {"iverilog": "iverilog", "vvp": "iverilog", "verilator": "verilator", "g++": "g++", "make": "make", "yosys": "yosys"}
KINDS = ("headers", "tables")
RANDOM_DESIGNS = 4

# Of each example that is granted, with runs through its use cases: chip, application, cycles, drain.
EXAMPLES = (
    ("pair", "one", 60, 0), ("pair", "local", 120, 0), ("pair", "two", 150, 8), ("wide", "one", 300, 0),
    ("wide", "two", 600, 8), ("torus", "camera", 600, 20), ("mesh_4x3", "vopd", 400, 0), ("mesh_4x3", "mpeg4", 400, 0),
)
VIDEO = ("examples/mesh.toml", "examples/video.toml", "video.plan", "examples/video.words.csv", "examples/video.receivers.csv",
         "examples/video.switches.csv")


def install():
    """Installs what is missing, where this may be done."""
    missing = {package for program, package in PROGRAMS.items() if not shutil.which(program)}
    if missing and os.geteuid() == 0 and shutil.which("apt-get"):
        how = {"stdout": subprocess.DEVNULL, "stderr": subprocess.DEVNULL, "check": False}
        subprocess.run(["apt-get", "update"], **how)
        subprocess.run(["apt-get", "install", "-y", "--no-install-recommends", *sorted(missing)], **how)


def setUpModule():
    install()


class Packages(unittest.TestCase):
    def test_simulators_and_synthesizer_are_installed(self):
        missing = sorted({package for program, package in PROGRAMS.items() if not shutil.which(program)})
        self.assertEqual(missing, [], "Debian packages that these tests need")


@unittest.skipUnless(PROGRAM, "there is no program: `./aeth` or `rt ci` builds it")
class WithHardware(unittest.TestCase):
    """Tests that share a folder with the scripts and the program."""

    @classmethod
    def setUpClass(cls):
        cls.home = Home(PROGRAM)
        cls.addClassCleanup(cls.home.end)

    def run_script(self, script, *words, **how):
        return self.home.run(*words, script=script, **how)

    def made(self, name, script, *words):
        status, text, errors = self.run_script(script, *words)
        self.assertEqual(status, 0, errors)
        return self.home.put(name, text)

    def example(self, chip, app, cycles=0, drain=0):
        """The files of an example, and where cycles are given those of a run through all its use cases."""
        files = f"examples/{chip}.toml", f"examples/{app}.toml"
        plan = self.made("plan", "aeth", "allocate", *files)
        if not cycles:
            return [*files, plan]
        text = (TOP / files[1]).read_text(encoding="utf-8")
        uses = re.findall(r'^\[\[use\]\]\nname = "(\w+)"', text, re.M)
        switches = self.made("switches.csv", "design", "switches", *files, cycles, *uses, "--drain", drain, "--plan", plan)
        traffic = "words", *files, switches, cycles, "--plan", plan, "--kind", "greedy"
        receivers = self.made("receivers.csv", "design", "receivers", *files, switches, cycles, "--late")
        return [*files, plan, self.made("words.csv", "design", *traffic), receivers, switches, cycles]

    def cosim(self, *words, status=0):
        ended, text, errors = self.run_script("design", "cosim", *words)
        self.assertEqual(ended, status, text + errors)
        return text

    def folder(self, kind, *files):
        """A new folder with hardware."""
        folder = self.home.room / f"hardware{len(list(self.home.room.iterdir()))}"
        status, text, errors = self.run_script("design", "rtl", *files, "--to", folder, "--routers", kind)
        self.assertEqual(status, 0, errors)
        return folder, text

    def shell(self, folder, *words):
        ran = subprocess.run(words, cwd=folder, capture_output=True, text=True, check=False)
        return ran.returncode, ran.stdout + ran.stderr


class Cosimulation(WithHardware):
    def test_examples_are_the_same(self):
        for chip, app, cycles, drain in EXAMPLES:
            files = self.example(chip, app, cycles, drain)
            for kind in KINDS:
                with self.subTest(chip=chip, app=app, kind=kind):
                    self.assertRegex(self.cosim(*files, "--routers", kind), rf"^the same: {cycles} cycles, [1-9]")

    def test_the_run_of_the_page(self):
        """By `links` it has 18 flits: 4, 2, 2, 4, 4 and 2 of the six links."""
        files = [*self.example("pair", "two"), *(f"examples/two.{name}.csv" for name in ("words", "receivers", "switches"))]
        tells = "the same: 24 cycles, 18 flits, 6 words landed; routers with headers, Icarus Verilog\n"
        self.assertEqual(self.cosim(*files, 24), tells)

    def test_video_through_its_use_cases(self):
        self.made("video.plan", "aeth", "allocate", *VIDEO[:2])
        for kind in KINDS:
            text = self.cosim(*VIDEO, 2000, "--routers", kind)
            self.assertIn("the same: 2,000 cycles, 2,962 flits, 1,294 words landed", text)

    def test_verilator(self):
        files = self.example("wide", "two", 600, 8)
        text = self.cosim(*files, "--routers", "tables", "--with", "verilator")
        self.assertRegex(text, r"^the same: 600 cycles, [1-9].*; routers with tables, Verilator\n$")

    def test_more_cycles_than_links_has(self):
        *files, _ = self.example("pair", "two", 150, 8)
        self.assertRegex(self.cosim(*files, 12_000), "^the same: 12,000 cycles")

    def test_random_designs(self):
        for number in range(RANDOM_DESIGNS):
            for status, text in hardware.compared(number, self.home.top):
                self.assertEqual(status, 0, f"{number}: {text}")


class Faults(WithHardware):
    @classmethod
    def setUpClass(cls):
        super().setUpClass()
        for name, text in (("chip", CHIP), ("app", APP), ("words", words()), ("receivers", RECEIVERS), ("switches", SWITCHES)):
            cls.home.put(name, text)
        cls.home.put("plan", cls.home.run("allocate", "chip", "app")[1])

    def test_without_a_fault(self):
        for kind in KINDS:
            text = self.cosim("chip", "app", "plan", "words", "receivers", "switches", CYCLES, "--routers", kind)
            self.assertIn("the same: 240 cycles, 351 flits, 153 words landed", text)

    def test_each_fault_is_told(self):
        for name, fault in FAULTS.items():
            path = self.home.top / f"rtl/aeth_{fault.module}.sv"
            text = path.read_text(encoding="utf-8")
            with self.subTest(name):
                self.assertEqual(text.count(fault.old), 1)
                path.write_text(text.replace(fault.old, fault.new), encoding="utf-8")
                run = "chip", "app", "plan", "words", "receivers", "switches", CYCLES, "--routers", fault.routers
                self.assertIn(fault.tells, self.cosim(*run, status=3))
            path.write_text(text, encoding="utf-8")

    def test_verilator_tells_a_promise(self):
        fault = FAULTS["a credit is added twice"]
        path = self.home.top / f"rtl/aeth_{fault.module}.sv"
        text = path.read_text(encoding="utf-8")
        path.write_text(text.replace(fault.old, fault.new), encoding="utf-8")
        run = "chip", "app", "plan", "words", "receivers", "switches", CYCLES, "--with", "verilator"
        told = self.cosim(*run, status=3)
        path.write_text(text, encoding="utf-8")
        self.assertIn(fault.tells, told)

    def test_a_second_flit_for_a_port(self):
        """No accepted plan has one, so a bench of its own tells whether both are lost."""
        self.assertEqual(self.clash(""), "neither\n")
        self.assertEqual(self.clash("chosen[port*W+:W] = '0;"), "one\n")

    def clash(self, left_out):
        room = self.home.room / "clash"
        room.mkdir(exist_ok=True)
        for name in ("aeth_pkg.sv", "aeth_types.svh", "aeth_assert.svh", "aeth_hop.sv", "aeth_router.sv"):
            text = (TOP / "rtl" / name).read_text(encoding="utf-8")
            if left_out and name == "aeth_router.sv":
                self.assertEqual(text.count(left_out), 1)
                text = text.replace(left_out, "")
            (room / name).write_text(text, encoding="utf-8")
        shutil.copy(TOP / "tests/clash_bench.sv", room)
        names = "aeth_pkg.sv", "aeth_hop.sv", "aeth_router.sv", "clash_bench.sv"
        status, text = self.shell(room, "iverilog", "-g2012", "-DSYNTHESIS", "-o", "clash", *names)
        self.assertEqual(status, 0, text)
        return self.shell(room, "vvp", "-n", "clash")[1]


class Folders(WithHardware):
    def test_it_runs_by_its_own_words(self):
        for kind in KINDS:
            files = self.example("wide", "two")
            folder, text = self.folder(kind, *files)
            self.assertIn("2 routers, 2 interfaces with 4 queues in use, 6 links", text)
            page = (folder / "README.md").read_text(encoding="ascii")
            *commands, _ = re.search(r"```sh\n(.*?)```", page, re.S)[1].splitlines()
            for command in commands:
                status, told = self.shell(folder, "sh", "-c", command)
                self.assertEqual(status, 0, told)
            log = (folder / "log.csv").read_text(encoding="ascii").splitlines()
            rows = sorted(log[1:], key=lambda row: tuple(map(int, row.split(",")[:2])))
            log = self.home.put("log.csv", "\n".join([log[0], *rows, ""]))
            switches = self.home.put("first.csv", "cycle,use,drain\n0,u0,0\n")
            self.assertEqual(self.run_script("aeth", "audit", *files, switches, log, 1000), (0, "clean\n", ""))
            self.assertGreater(len(rows), 10)
            self.assertTrue((folder / "network.vcd").stat().st_size)

    def test_tables_are_those_that_are_printed(self):
        """Each write of a use case, taken apart by the layout of rtl/aeth_types.svh."""
        files = self.example("mesh", "video")
        folder, _ = self.folder("headers", *files)
        nis = tomllib.loads((TOP / files[0]).read_text(encoding="utf-8"))["nis"]
        for use in ("decode", "menu", "record"):
            said = self.run_script("aeth", "tables", *files, use)[1].splitlines()[1:-1]
            told = []
            for line in (folder / f"tables/{use}.hex").read_text(encoding="ascii").splitlines():
                number = int(line.split()[0], 16)
                fields = []
                for width in (16, 5, 21, 5, 7, 6, 2):
                    fields.append(number % 2**width)
                    number >>= width
                room, remote, route, queue, slot, ni, kind = fields
                if kind == 1:
                    told.append(f"entry {nis[ni]} {slot} {queue}")
                else:
                    self.assertEqual(kind, 3)
                    told.append(f"queue {nis[ni]} {queue} {route} {remote} {room} {' '.join(line.split()[-2:])}")
            self.assertEqual(sorted(told), sorted(re.sub(r"^(queue.*) \d+ \d+$", r"\1", line) for line in said))
        names = sorted(path.name for path in (folder / "tables").iterdir())
        self.assertEqual(names, sorted(f"{one}.hex" for one in (
            "decode", "menu", "record", "decode.menu", "decode.record", "menu.decode", "menu.record", "record.decode",
            "record.menu")))

    def test_lint(self):
        for chip, app in (("wide", "two"), ("mesh", "video")):
            for kind in KINDS:
                folder, _ = self.folder(kind, *self.example(chip, app))
                words = "verilator", "--lint-only", "-Wall", "-f", "network.f", "--top-module", "aeth_network"
                self.assertEqual(self.shell(folder, *words), (0, ""))
                words = "verilator", "--lint-only", "--timing", "-f", "bench.f", "--top-module", "aeth_bench"
                self.assertEqual(self.shell(folder, *words), (0, ""))

    def test_synthesis(self):
        """No latch, no loop, no net with two drivers."""
        for kind in KINDS:
            folder, _ = self.folder(kind, *self.example("pair", "two"))
            names = [name for name in (folder / "network.f").read_text(encoding="ascii").split() if name[0] != "+"]
            script = f"read_verilog -sv -Irtl -DSYNTHESIS {' '.join(names)}; synth -top aeth_network; check -assert; " + \
                "select -assert-none t:$_DLATCH_* t:$_DLATCHSR_* t:$dlatch"
            status, text = self.shell(folder, "yosys", "-p", script)
            self.assertEqual(status, 0, text[-2000:])
            self.assertIn("Found and reported 0 problems.", text)

    def test_names_that_are_words_of_the_language(self):
        chip = CHIP.replace('"r0"', '"wire"').replace('"r1"', '"clk_i"').replace('"n1"', '"0"')
        app = APP.replace('"n1"', '"0"').replace('"load"', '"module"').replace('"copy"', '"7__x"')
        chip, app = self.home.put("words.chip", chip), self.home.put("words.app", app)
        plan = self.made("words.plan", "aeth", "allocate", chip, app)
        folder, _ = self.folder("tables", chip, app, plan)
        text = (folder / "aeth_network.sv").read_text(encoding="ascii")
        for name in (") N_wire (", ") N_clk_i (", ") N_0 (", ") n0 (", ") n0_wire (", "offer_module_fwd_i", "ready_7__x_back_o"):
            self.assertIn(name, text)
        rows = words().replace("load", "module").replace("copy", "7__x"), RECEIVERS.replace("load", "module"), SWITCHES
        run = [self.home.put(f"words.{place}.csv", text) for place, text in enumerate(rows)]
        self.assertIn("the same: 240 cycles", self.cosim(chip, app, plan, *run, CYCLES))
        lint = "verilator", "--lint-only", "-Wall", "-f", "network.f", "--top-module", "aeth_network"
        self.assertEqual(self.shell(folder, *lint), (0, ""))


class Waves(WithHardware):
    def test_links_have_the_names_and_the_flits_of_a_drawn_wave(self):
        files = [*self.example("wide", "two"), *(f"examples/two.{name}.csv" for name in ("words", "receivers", "switches"))]
        self.cosim(*files, 150, "--wave", "hardware.vcd")
        text = (self.home.top / "hardware.vcd").read_text(encoding="ascii")
        drawn = Dump(self.home.run("wave", *files, 150, script="draw")[1])
        scopes = re.findall(r"\$scope module (\w+_\w+) \$end\n(?:\$var wire .*\n){7}\$var string 1 \S+ channel \$end", text)
        self.assertEqual(scopes, list(drawn.scopes))
        for name in ("interfaces", "routers", "switch_port"):
            self.assertIn(f"$scope module {name} $end", text)
        self.assertEqual(flits_of(text), flits_of(self.home.run("wave", *files, 150, script="draw")[1]))


def flits_of(dump):
    """By link and cycle the fields of the flits of a dump."""
    head, body = dump.split("$enddefinitions $end\n")
    signs = {}
    for scope, text in re.findall(r"\$scope module (\w+_\w+) \$end\n((?:\$(?:var|comment) .*\n)+)", head):
        for sign, field in re.findall(r"\$var \w+ \d+ (\S+) (\w+)", text if "$var string" in text else ""):
            signs.setdefault(sign, []).append((scope, field))
    values, found = {}, {}
    for part in re.split(r"(?m)^#", body)[1:]:
        time, *lines = part.splitlines()
        for line in lines:
            value, sign = re.fullmatch(r"(?:([bs]\S+) |([01xz]))(\S+)", line).group(1, 3) if line[0] != "$" else ("", "")
            for key in signs.get(sign, ()):
                values[key] = value or line[0]
        for scope in {scope for scope, _ in values}:
            if values[scope, "flit"] == "1":
                found[scope, int(time)] = {
                    field: value for (other, field), value in values.items() if other == scope}
    return found


class Reports(WithHardware):
    def test_a_report_has_the_verdict(self):
        files = [*self.example("pair", "two"), *(f"examples/two.{name}.csv" for name in ("words", "receivers", "switches"))]
        status, page, errors = self.run_script("draw", "report", *files, 24, "--cosim")
        self.assertEqual((status, errors), (0, ""))
        line = "Hardware: the same: 24 cycles, 18 flits, 6 words landed; routers with headers, Icarus Verilog."
        self.assertIn(f'<p class="verdict good">{line}</p>', page)
        told = self.run_script("draw", "report", *files[:3], "--cosim")
        self.assertEqual(told[:2], (1, ""))
        self.assertIn("--cosim stands behind the words of a run", told[2])


class Statuses(WithHardware):
    """What fails, with one line of ours."""

    def test_a_folder_that_is_not_empty(self):
        files = self.example("pair", "two")
        kept = self.home.put("full/kept", "mine")
        status, text, errors = self.run_script("design", "rtl", *files, "--to", "full")
        self.assertEqual((status, text), (1, ""))
        self.assertEqual(errors, "design: full isn't an empty folder, and nothing in it is written over\n")
        self.assertEqual([path.name for path in kept.parent.iterdir()], ["kept"])
        self.assertEqual(self.run_script("design", "rtl", *files, "--to", kept)[0], 1)
        self.assertEqual(kept.read_text(encoding="ascii"), "mine")

    def test_files_are_judged_first(self):
        files = self.example("pair", "two", 150, 8)
        broken = self.home.put("broken.plan", "plan 1 8\nend\n")
        self.assertEqual(self.run_script("design", "rtl", *files[:2], broken, "--to", "new"), (3, "", "broken 2 0 0\n"))
        self.assertFalse((self.home.top / "new").exists())
        run = [*files[:2], broken, *files[3:]]
        self.assertEqual(self.run_script("design", "cosim", *run), (3, "", "broken 2 0 0\n"))
        run = [*files[:3], "no_such_file", *files[4:]]
        self.assertEqual(self.run_script("design", "cosim", *run), (4, "", "read fault words\n"))

    def test_words(self):
        files = self.example("pair", "two", 150, 8)
        for more, tells in (
            (files[:6] + ["0"], "a run has 1 to 1,000,000 cycles"), (files[:6] + ["many"], "`many` is no whole number"),
            (files + ["--with", "other"], "invalid choice: 'other'"), (files[:5], "required: SWITCHES, CYCLES"),
        ):
            status, text, errors = self.run_script("design", "cosim", *more)
            self.assertEqual((status, text, errors.count("\n")), (1, "", 1))
            self.assertIn(tells, errors)

    def bare(self, **programs):
        """A folder of programs with those that the scripts need, and others by the text of a script."""
        room = self.home.room / "bin.bare"
        shutil.rmtree(room, ignore_errors=True)
        room.mkdir()
        for name in ("sh", "env", "git", "find", "cat", "dirname", "readlink", "cmp", "sleep", "rm", "cp", "mv"):
            if shutil.which(name):
                (room / name).symlink_to(shutil.which(name))
        (room / "python3").symlink_to(sys.executable)
        for name, text in programs.items():
            (room / name).write_text(f"#!/bin/sh\n{text}\n")
            (room / name).chmod(0o755)
        return {"PATH": str(room)}

    def test_no_simulator(self):
        files = self.example("pair", "two", 150, 8)
        for name in ("iverilog", "verilator"):
            kind = "icarus" if name == "iverilog" else name
            told = self.run_script("design", "cosim", *files, "--with", kind, **self.bare())
            self.assertEqual(told, (7, "", f"design: there is no `{name}`: the Debian package `{name}` has it\n"))

    def test_a_simulator_that_fails(self):
        files = self.example("pair", "two", 150, 8)
        failing = self.bare(iverilog="echo it is ill; exit 9", vvp="exit 0")
        status, text, errors = self.run_script("design", "cosim", *files, **failing)
        self.assertEqual((status, text), (7, ""))
        self.assertTrue(errors.endswith("it is ill\ndesign: Icarus Verilog didn't compile the network, with status 9\n"), errors)
        failing = self.bare(iverilog="exit 0", vvp="echo it ends; exit 0")
        status, text, errors = self.run_script("design", "cosim", *files, **failing)
        self.assertTrue(errors.endswith("it ends\ndesign: Icarus Verilog ended before the run did, with status 0\n"), errors)

    def test_a_wave_that_can_not_be_written(self):
        files = self.example("pair", "two", 150, 8)
        status, text, errors = self.run_script("design", "cosim", *files, "--wave", "no_folder/file")
        self.assertEqual((status, text), (5, ""))
        self.assertTrue(errors.endswith("design: no_folder/file: No such file or directory\n"))

    def test_a_signal_leaves_no_folder(self):
        (room := self.home.room / "scratch").mkdir()
        words = [str(word) for word in (self.home.top / "design", "cosim", *self.example("pair", "two", 150, 8))]
        settings = {**self.home.settings, **self.bare(iverilog="exec sleep 60", vvp=""), "TMPDIR": str(room)}
        for number in (signal.SIGHUP, signal.SIGINT, signal.SIGTERM):
            first = lambda number=number: signal.signal(number, signal.SIG_DFL)
            with subprocess.Popen(words, cwd=self.home.top, env=settings, preexec_fn=first) as ran:
                while ran.poll() is None and not list(room.iterdir()):
                    time.sleep(0.05)
                ran.send_signal(number)
            self.assertEqual((ran.returncode, list(room.iterdir())), (-number, []))
