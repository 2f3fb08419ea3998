"""Tests of `./aeth`: its pages, and that it builds the program where it must, and only there."""
import os
import pathlib
import re
import shutil
import signal
import subprocess
import tempfile
import time
import unittest

from home import Home, TOP

COMMANDS = re.findall(r"^aeth ([a-z-]+)", (TOP / "docs/FORMATS.md").read_text(), re.M)


class WithHome(unittest.TestCase):
    def setUp(self):
        self.home = Home()
        self.addCleanup(self.home.end)
        self.main = self.home.top / "crates/aeth/src/main.rt"
        self.base = self.home.top / "crates/aeth_base/src/lib.rt"

    def says(self, text, builds, *words, **settings):
        """The program answers with these sources, and so many builds there were by then."""
        status, out, _ = self.home.run(*words, **settings)
        self.assertEqual((status, out), (3, f"{text} : {' '.join(words)}\n"))
        self.assertEqual(self.home.built(), builds)


class Pages(WithHome):
    def test_help_has_each_command(self):
        status, page, said = self.home.run("help")
        self.assertEqual((status, said), (0, ""))
        self.assertGreater(len(COMMANDS), 8)
        for command in COMMANDS:
            self.assertIn(f"./aeth {command} ", page)
        for word in ("-h", "--help"):
            self.assertEqual(self.home.run(word), (0, page, ""))

    def test_each_command_has_a_page(self):
        for command in COMMANDS:
            status, page, _ = self.home.run("help", command)
            self.assertEqual(status, 0, command)
            self.assertRegex(page, rf"\Aaeth {command} [A-Z]")
            self.assertIn(f"./aeth {command} ", page)
            self.assertLessEqual(max(map(len, page.splitlines())), 82)

    def test_a_command_with_help_answers_with_its_page(self):
        for command in COMMANDS:
            page = self.home.run("help", command)
            for word in ("--help", "-h"):
                self.assertEqual(self.home.run(command, word), page, command)
        self.assertEqual(self.home.run("help", "--help"), self.home.run("help"))
        self.assertEqual(self.home.built(), 0)

    def test_pages_are_no_other_files(self):
        for word in ("nosuch", "aeth", "../version", "help/chip", "", ".", "chip\n", "\x1b[2J", "\\033[2J"):
            for words in (("help", word), (word, "--help")):
                status, page, said = self.home.run(*words)
                self.assertEqual((status, page), (1, ""), words)
                self.assertRegex(said, r"\Aaeth: there is no [ -~]*`./aeth help` lists them\n\Z")

    def test_no_page_builds(self):
        self.home.run("help", "chip")
        self.home.run("--version")
        self.assertEqual(self.home.built(), 0)

    def test_version_has_the_kit_of_the_readme(self):
        kit = re.search(r"Rattle kit `([^`]*)`", (TOP / "README.md").read_text())[1]
        status, said, _ = self.home.run("--version")
        self.assertEqual(status, 0)
        self.assertRegex(said, r"\Aaeth \d")
        self.assertIn(kit, said)

    def test_a_page_that_cant_be_written(self):
        with open("/dev/full", "wb") as full:
            self.assertEqual(self.home.run("help", "chip", out=full)[0], 5)

    def test_other_words_go_to_the_program(self):
        for words in (("help", "chip", "app"), ("chip", "./--help"), ("chip", "app", "--help"), ("--version", "x"), ("", "a b", "*")):
            self.says("main base middle", 1, *words)


class Builds(WithHome):
    def test_words_input_and_status_are_the_programs(self):
        status, out, said = self.home.run("a", "b", given=b"given")
        self.assertEqual((status, out), (3, "main base middle : a b\n"))
        self.assertTrue(said.endswith("given"))

    def test_prove_only(self):
        for builds in (1, 1):
            status, out, said = self.home.run("--prove-only")
            self.assertEqual((status, out), (0, ""))
            self.assertEqual(self.home.built(), builds)
        self.assertEqual(said, "")
        self.says("main base middle", 1)
        self.main.write_text("broken\n")
        status, out, said = self.home.run("--prove-only")
        self.assertEqual((status, out), (126, ""))
        self.assertIn("error[proof]: it is broken", said)

    def test_unproved(self):
        """It is said before and behind, nothing is built or kept, and files are handed over, but for words that are none."""
        chip, app = self.home.put("a b/it's.toml", "the chip\n"), self.home.put("u", "the application\n")
        words = ("--unproved", "tables", "a b/it's.toml", app, "missing.plan", "u")
        status, out, said = self.home.run(*words)
        told = f"{self.home.top}/crates/aeth: --seconds 600 --data word2={app} --data word1={chip} -- tables word1 word2 missing.plan u"
        self.assertEqual((status, out), (3, f"{told}\nthe application\nthe chip\n"))
        first, *lines = said.splitlines()
        self.assertRegex(first, "^aeth: UNPROVED: ")
        self.assertRegex(lines.pop(), "^aeth: UNPROVED: ")
        self.assertEqual(lines, ["refused unit c0 0 back 1"])
        self.assertEqual((self.home.built(), (self.home.top / "out").exists()), (0, False))

    def test_unproved_and_not_compiled(self):
        status, _, said = self.home.run("--unproved", "demo", "7", STATUS="x")
        self.assertEqual(status, 126)
        self.assertRegex(said, "there is no answer\n$")
        self.assertEqual(self.home.run("--unproved")[0], 1)
        self.assertEqual(self.home.run("--unproved", "demo", "7", PATH="/usr/bin:/bin")[0], 127)

    def test_nothing_is_left_beside_the_program(self):
        before = set(os.listdir(tempfile.gettempdir()))
        self.home.run("a")
        left = {name for name in set(os.listdir(tempfile.gettempdir())) - before if name.startswith("aeth-build")}
        self.assertEqual(left, set())
        self.assertLessEqual(set(os.listdir(self.home.top / "out")), {"aeth", "list", "sources"})

    def test_heavy_crates_are_proved_ahead(self):
        """Low ones in a run without others, where there are three processors and memory for two runs; all but the last by as many
        provers as there are processors, where there is memory for these."""
        for name, size in (("aeth_base/src/lib", 12_000), ("aeth_middle/src/lib", 12_000), ("aeth/src/main", 60_000)):
            self.home.put(f"crates/{name}.rt", "x" * size + "\n")
        self.home.run("--prove-only", SLOW="1")
        told = self.home.builds.read_text().splitlines()
        many, memory = os.sysconf("SC_NPROCESSORS_ONLN"), os.sysconf("SC_PAGE_SIZE") * os.sysconf("SC_PHYS_PAGES")
        if len(told) < 3 and (many < 3 or memory < (4 * many << 30) or memory < 12 << 30):
            self.skipTest("there are two processors, or little memory")
        self.assertEqual(sorted(told), ["ahead: aeth_base aeth_middle", "built", f"early: aeth_base aeth_middle, {many} at once"])
        self.main.write_text("y" * 60_000)
        status, out, said = self.home.run("--prove-only", EARLY="1")
        self.assertEqual((status, out), (126, ""))
        self.assertIn("error[proof]: it is early", said)
        self.assertEqual(self.home.builds.read_text().splitlines()[-1], f"early: aeth_base aeth_middle, {many} at once")

    def test_what_was_built_before_is_built_once(self):
        """In this checkout, which goes back to what it was, and in another one."""
        cache = str(self.home.room / "cache")
        self.says("main base middle", 1, XDG_CACHE_HOME=cache)
        self.main.write_text("more\n")
        self.says("more base middle", 2, XDG_CACHE_HOME=cache)
        self.main.write_text("main\n")
        self.says("main base middle", 2, XDG_CACHE_HOME=cache)
        other = Home(name="other")
        self.addCleanup(other.end)
        self.assertEqual(other.run("a", XDG_CACHE_HOME=cache), (3, "main base middle : a\n", ""))
        self.assertEqual(other.built(), 0)
        (other.top / "crates/aeth/src/main.rt").write_text("broken\n")
        self.assertEqual(other.run("a", XDG_CACHE_HOME=cache)[0], 126)

    def test_few_programs_are_kept(self):
        cache = self.home.room / "cache"
        for number in range(10):
            self.main.write_text(f"text {number}\n")
            self.says(f"text {number} base middle", number + 1, XDG_CACHE_HOME=str(cache))
        self.assertEqual(len(os.listdir(cache / "aeth")), 8)

    def test_builds_once(self):
        for _ in range(3):
            self.says("main base middle", 1)

    def test_from_anywhere(self):
        self.says("main base middle", 1)
        link = self.home.room / "link"
        link.symlink_to(self.home.top / "aeth")
        for words, folder in (([link], "/"), (["sh", "aeth"], self.home.top), (["./aeth"], self.home.top)):
            ran = subprocess.run(words, cwd=folder, env=self.home.settings, stdin=subprocess.DEVNULL, capture_output=True)
            self.assertEqual(ran.returncode, 3)
        self.assertEqual(self.home.built(), 1)

    def test_in_a_folder_with_spaces(self):
        home = Home(name="a  folder's $name")
        self.addCleanup(home.end)
        for _ in range(2):
            self.assertEqual(home.run("a")[:2], (3, "main base middle : a\n"))
        self.assertEqual(home.built(), 1)

    def changes(self, **settings):
        """Sources are changed, put back and deleted in all ways; the program is never that of other sources."""
        self.says("main base middle", 1, **settings)
        with self.main.open("a") as file:
            file.write("more\n")
        self.says("main more base middle", 2, **settings)
        kept = self.home.room / "kept"
        shutil.copy2(self.main, kept)
        self.main.write_text("other text\n")
        self.says("other text base middle", 3, **settings)
        shutil.copy2(kept, self.main)  # with its old time
        self.says("main more base middle", 4, **settings)
        time.sleep(1.1)  # git looks at whole seconds; a build by `rt` takes longer
        self.main.write_text("MAIN MORE\n")  # as long
        shutil.copystat(kept, self.main)
        self.says("MAIN MORE base middle", 5, **settings)
        self.base.rename(kept)
        status, out, said = self.home.run(**settings)
        self.assertEqual((status, out), (126, ""))
        self.assertIn("error[file]: no source", said)
        kept.rename(self.base)
        self.assertEqual(self.home.run(**settings)[1], "MAIN MORE base middle : \n")

    def test_changes(self):
        self.changes()
        self.assertEqual(self.home.built(), 6)

    def test_changes_without_git(self):
        tools = self.home.room / "tools"
        tools.mkdir()
        for folder in ("/usr/bin", "/bin"):
            for tool in pathlib.Path(folder).iterdir():
                if not tool.name.startswith("git") and not (tools / tool.name).is_symlink():
                    (tools / tool.name).symlink_to(tool)
        self.changes(PATH=f"{self.home.room}/bin:{tools}")

    def test_a_new_time_alone_builds_nothing(self):
        self.says("main base middle", 1)
        os.utime(self.main)
        self.says("main base middle", 1)

    def test_calls_at_once(self):
        self.says("main base middle", 1)
        os.utime(self.main)
        how = {"env": self.home.settings, "stdin": subprocess.DEVNULL, "stdout": subprocess.PIPE}
        calls = [subprocess.Popen([self.home.top / "aeth"], **how) for _ in range(8)]
        self.assertEqual({call.communicate()[0] for call in calls}, {b"main base middle : \n"})
        self.assertEqual(self.home.built(), 1)

    def test_a_change_during_the_build_is_built_next(self):
        self.says("main base middle", 1, CHANGES=str(self.main))
        self.says("main changed base middle", 2)

    def test_what_isnt_proved_isnt_run(self):
        self.says("main base middle", 1)
        self.main.write_text("broken\n")
        for _ in range(2):
            status, out, said = self.home.run("a")
            self.assertEqual((status, out), (126, ""))
            self.assertIn("error[proof]: it is broken", said)
            log = re.search(r"text is in (.*)", said)[1]
            self.assertIn("rt: aeth proved\n", (self.home.top / log).read_text())
        self.main.write_text("main\n")
        self.assertEqual(self.home.run("a")[:2], (3, "main base middle : a\n"))

    def test_no_folder_to_build_in(self):
        """`out` is a file, or a folder in which nobody can make one."""
        out = self.home.top / "out"
        for make in (lambda: out.write_text(""), lambda: out.symlink_to("/proc")):
            make()
            status, told, said = self.home.run("a")
            self.assertEqual((status, told, said.count("\n")), (126, "", 1))
            self.assertIn("out, where the program is built, so nothing was run", said)
            out.unlink()

    def test_there_is_no_rt(self):
        path = ":".join(folder for folder in os.environ["PATH"].split(":") if not os.access(f"{folder}/rt", os.X_OK))
        status, out, said = self.home.run("a", PATH=path)
        self.assertEqual((status, out), (127, ""))
        self.assertIn("no `rt`", said)
        self.assertEqual(os.listdir(self.home.top / "out"), [])

    def test_a_build_that_is_stopped(self):
        for number in (signal.SIGINT, signal.SIGTERM):
            how = {"stdout": subprocess.DEVNULL, "stderr": subprocess.DEVNULL, "stdin": subprocess.DEVNULL}
            settings = {**self.home.settings, "SLOW": "9"}
            before = self.home.built()
            # Tests that a shell runs in the background are begun with SIGINT ignored, and so would be what they run.
            how["preexec_fn"] = lambda: signal.signal(number, signal.SIG_DFL)
            how["stderr"] = subprocess.PIPE
            ran = subprocess.Popen([self.home.top / "aeth"], env=settings, start_new_session=True, **how)
            while self.home.built() == before and ran.poll() is None:
                time.sleep(0.05)
            os.killpg(ran.pid, number)
            said = ran.communicate(timeout=60)[1].decode()
            self.assertEqual(ran.returncode, -number)
            self.assertIn("the next call goes on from there", said.splitlines()[-1])
            self.assertEqual(os.listdir(self.home.top / "out"), [])
        self.assertEqual(self.home.run("a")[:2], (3, "main base middle : a\n"))


class Gate(WithHome):
    """What `rt ci` leaves is run at once, but not where a source was touched since that run began."""

    def setUp(self):
        super().setUp()
        if self.born(".") <= 0:
            self.skipTest("this file system doesn't tell when a folder was made")
        self.leave()

    def leave(self, pause=0.05):
        time.sleep(pause)  # the clock of files is coarse
        for name in ("aeth_base", "aeth_middle", "aeth"):
            (self.home.top / "crates" / name / "out").mkdir()
            # (as a gate does, so that no crate's folder is newer than its `out`)
            (self.home.top / "crates" / name / "out/rlib").mkdir()
        program = self.home.put("crates/aeth/out/aeth", "#!/bin/sh\necho left\n")
        program.chmod(0o755)

    def take_away(self):
        for name in ("aeth_base", "aeth_middle", "aeth"):
            shutil.rmtree(self.home.top / "crates" / name / "out")

    def test_left(self):
        for _ in range(2):
            self.assertEqual(self.home.run(), (0, "left\n", ""))
        self.assertEqual(self.home.built(), 0)
        self.main.write_text("more\n")
        self.says("more base middle", 1)

    def test_left_and_changed(self):
        kept = self.home.room / "kept"
        shutil.copy2(self.main, kept)
        time.sleep(0.05)
        shutil.copy2(kept, self.main)
        self.says("main base middle", 1)

    def test_left_and_changed_in_the_same_tick(self):
        """What changed as the gate made its first folder counts as changed: the clock of files may tell one time of both."""
        for number in range(1, 6):
            self.change_and_leave(f"change {number}\n")
            self.says(f"change {number} base middle", number)

    def change_and_leave(self, text):
        """Changes a source, and lets a gate begin before the clock of files has gone on by more than a tick."""
        for _ in range(100):
            self.take_away()
            self.main.write_text(text)
            self.leave(pause=0)
            if self.born("crates/aeth_base/out") - self.main.stat().st_ctime < 0.01:
                return
        self.skipTest("this machine is too busy to make a source and a folder within a tick")

    def born(self, name):
        """When a folder was made, or 0 where the file system doesn't tell."""
        told = subprocess.run(
            ["stat", "-c", "%.9W", self.home.top / name], capture_output=True, check=False, env={**os.environ, "LC_ALL": "C"}
        ).stdout
        return float(told or 0)

    def test_left_and_deleted(self):
        time.sleep(0.05)
        self.home.put("crates/aeth/specs/Words.antt", "")
        shutil.rmtree(self.home.top / "crates/aeth/out")
        (self.home.top / "crates/aeth/out").mkdir()
        self.home.put("crates/aeth/out/aeth", "#!/bin/sh\necho left\n").chmod(0o755)
        time.sleep(0.05)
        shutil.rmtree(self.home.top / "crates/aeth/specs")
        self.says("main base middle", 1)

    def test_rt_ci_takes_nothing_away(self):
        self.home.run()
        self.take_away()
        self.assertEqual(self.home.run(), (0, "left\n", ""))


class Progress(WithHome):
    def test_on_a_terminal_one_line_is_rewritten(self):
        status, said = self.home.on_terminal("a", SLOW="3")
        self.assertEqual(status, 3)
        self.assertRegex(said, r"\raeth: 2 of 3 crates proved, 0 min gone, some 1 to go\x1b\[K\r")
        self.assertEqual(said.count("\n"), 3)  # of the lines that come first

    def test_elsewhere_a_line_a_crate(self):
        _, _, said = self.home.run("a", SLOW="3")
        lines = said.splitlines()
        self.assertIn("aeth: 1 of 3 crates proved, 0 min gone, some 1 to go", lines)
        self.assertIn("aeth: 3 of 3 crates proved, 0 min gone, building the program", lines)
        self.assertEqual(len(lines), len(set(lines)))
        self.assertNotIn("\r", said)

    def test_the_first_lines_say_what_is_done_and_what_can_be_done_meanwhile(self):
        said = self.home.run("a")[2]
        for word in ("proved and built first", "half an hour", "./aeth help", "README.md", "./design chip", "Ctrl-C"):
            self.assertIn(word, said)
        self.assertEqual(self.home.run("a")[2], "")

    def test_no_words_on_a_terminal(self):
        self.home.run()
        status, said = self.home.on_terminal()
        self.assertEqual(status, 3)
        self.assertEqual(said.splitlines(), ["aeth: `./aeth help` tells the commands, the files and the statuses"])
        self.assertEqual(self.home.run()[2], "")
