"""Tests of `./aeth completion`: what bash and zsh offer for the words of `aeth`, `design` and `draw`."""
import os
import re
import shutil
import subprocess
import unittest

from home import Home, TOP

TRY = """
source TEXT
COMP_WORDS=("$@")
COMP_CWORD=$(($# - 1))
_aeth_complete
printf '%s\\n' "${COMPREPLY[@]}"
"""
# A terminal with a shell in it, whose completions print what they get.
TRY_ZSH = """
zmodload zsh/zpty
zpty it zsh -f -i
zpty -w it "PS1= RPROMPT= LISTMAX=1000; autoload -Uz compinit && compinit -D -u; source $1; bindkey '^I' complete-word; stty -echo"
zpty -w it "compadd() { local -a given; builtin compadd -O given \\"\\$@\\"; print -l -- got:\\$^given; }; echo read''y"
zpty -r it text '*ready*'
zpty -w -n it "$2"$'\\t'
sleep 1
zpty -r -t it text '*' && print -r -- "$text"
while zpty -r -t it text; do print -r -- "$text"; done
zpty -d it
"""


def commands_of(script):
    """The commands that the page of a script begins a line with."""
    return re.findall(rf"(?m)^{script} ([a-z-]+) [^-]", (TOP / script).read_text())


class WithText(unittest.TestCase):
    def setUp(self):
        self.home = Home()
        self.addCleanup(self.home.end)
        self.folder = self.home.top
        for name in ("one.toml", "my.plan", "b.words.csv", "a note.txt"):
            (self.folder / name).write_text("")
        (self.folder / "below").mkdir()

    def text(self, shell):
        status, text, said = self.home.run("completion", shell)
        self.assertEqual((status, said), (0, ""))
        self.assertEqual(self.home.built(), 0)
        file = self.home.room / f"completion.{shell}"
        file.write_text(text)
        return file


@unittest.skipUnless(shutil.which("bash"), "there is no bash")
class Bash(WithText):
    def offered(self, *words):
        """What bash offers in the place of the last word."""
        script = TRY.replace("TEXT", str(self.text("bash")))
        ran = subprocess.run(["bash", "-c", script, "bash", *words], capture_output=True, cwd=self.folder, text=True, check=False)
        self.assertEqual((ran.returncode, ran.stderr), (0, ""), words)
        return [line for line in ran.stdout.split("\n") if line]

    def test_commands(self):
        pages = {page.name for page in (self.folder / "aeth.d/help").iterdir()} - {"aeth"}
        self.assertEqual(set(self.offered("./aeth", "")), pages | {"help", "--version", "--prove-only", "--unproved"})
        for script in ("design", "draw"):
            self.assertEqual(self.offered(f"./{script}", ""), [*commands_of(script), "help"])
            self.assertGreater(len(commands_of(script)), 4)
        self.assertEqual(self.offered("/somewhere/aeth", "sim"), ["simulate", "simulate-tables"])
        self.assertEqual(self.offered("aeth", "help", "ex"), ["explain"])
        self.assertEqual(self.offered("aeth", "completion", ""), ["bash", "zsh"])

    def test_files_by_kind(self):
        self.assertEqual(set(self.offered("./aeth", "chip", "o")), {"one.toml"})
        folders = {"below", "aeth.d", "common.d", "design.d", "draw.d", "docs", "rtl", "crates", "bin", "examples", "out"}
        tried = {"chip": (), "app": ("x",), "check": ("x", "x"), "simulate": ("x", "x", "x")}
        kinds = {"chip": "one.toml", "app": "one.toml", "check": "my.plan", "simulate": "b.words.csv"}
        for command, before in tried.items():
            self.assertEqual(set(self.offered("./aeth", command, *before, "")) - folders, {kinds[command]}, command)
        self.assertEqual(self.offered("./draw", "report", "x", "x", "m"), ["my.plan"])
        self.assertEqual(self.offered("./design", "rtl", "x", "x", "x", "--to", "bel"), ["below"])

    def test_any_file_where_none_is_of_the_kind(self):
        self.assertEqual(self.offered("./aeth", "chip", "a n"), ["a note.txt"])

    def test_names_of_the_application(self):
        two = "examples/two.toml"
        self.assertEqual(self.offered("./aeth", "tables", "x", two, "x", ""), ["u0", "u1"])
        self.assertEqual(self.offered("./aeth", "chain", "x", f'"{two}"', "x", "u1"), ["u1"])
        self.assertEqual(self.offered("./draw", "plan", "x", two, "x", "u0", ""), ["c0", "c1"])
        self.assertEqual(self.offered("./draw", "plan", "x", two, "x", "u0", "c0", ""), ["fwd", "back"])
        self.assertEqual(self.offered("./design", "switches", "x", two, "100", "u0", "u"), ["u0", "u1"])
        self.assertEqual(self.offered("./aeth", "tables", "x", "nosuch.toml", "x", ""), [])
        listed = 'use = [\n  {name = "a", connections = []}, {name = \'b\', connections = []},\n]\ncore = [{name = "k"}]\n'
        self.home.put("listed.toml", listed)
        self.assertEqual(self.offered("./aeth", "tables", "x", "listed.toml", "x", ""), ["a", "b"])

    def test_no_name_of_a_file_is_more_than_a_name(self):
        self.home.put("odd.toml", '[[use]]\nname = "$(touch it)"\n[[use]]\nname = "a\\u001b[2J"\n[[use]]\nname = "-x"\n[[use]]\nname = "u"\n')
        self.assertEqual(self.offered("./aeth", "tables", "x", "odd.toml", "x", ""), ["u"])
        self.assertFalse((self.folder / "it").exists())

    def test_options(self):
        self.assertEqual(self.offered("./design", "words", "--k"), ["--kind"])
        self.assertEqual(self.offered("./design", "words", "--kind", ""), ["periodic", "greedy", "random"])
        self.assertEqual(self.offered("./design", "words", "--plan", "m"), ["my.plan"])
        self.assertEqual(self.offered("./design", "chip", ""), ["mesh", "torus", "ring", "tree"])
        self.assertEqual(self.offered("./design", "chip", "mesh", "2", "--slots", "8", ""), [])
        self.assertIn("--cosim", self.offered("./draw", "report", *"xxxxxx", "9", ""))
        self.assertEqual(self.offered("./draw", "report", *"xxx", "--csv", ""), ["channels", "links", "switches"])
        self.assertEqual(self.offered("./draw", "report", *"xxx", "--j"), ["--json"])
        self.assertEqual(self.offered("./draw", "report", "--csv", ""), ["channels", "links", "switches"])

    def test_words_of_a_refusal(self):
        found = self.offered("./design", "where", "")
        self.assertIn("allocate", found)
        self.assertNotIn("completion", found)
        for before in (("./design", "where"), ("./aeth", "--unproved")):
            self.assertEqual(self.offered(*before, "tables", "x", "examples/two.toml", "x", ""), ["u0", "u1"])

    def test_loaded_as_the_page_tells(self):
        told = 'source <(./aeth completion bash); complete -p aeth design draw'
        ran = subprocess.run(["bash", "-c", told], capture_output=True, cwd=self.folder, text=True, env=self.home.settings, check=False)
        self.assertEqual(ran.stdout, "".join(f"complete -F _aeth_complete {name}\n" for name in ("aeth", "design", "draw")))


@unittest.skipUnless(shutil.which("zsh"), "there is no zsh")
class Zsh(WithText):
    def offered(self, line):
        """What zsh offers at the end of a line."""
        words = ["zsh", "-f", "-c", TRY_ZSH, "zsh", str(self.text("zsh")), line]
        ran = subprocess.run(words, capture_output=True, cwd=self.folder, text=True, timeout=60, check=False)
        return list(dict.fromkeys(re.findall(r"got:([^\r\n]+)", ran.stdout)))

    def test_commands_files_and_names(self):
        self.assertEqual(self.offered("./aeth simu"), ["simulate", "simulate-tables"])
        self.assertEqual(self.offered("./aeth chip o"), ["one.toml"])
        self.assertEqual(self.offered("./aeth tables x examples/two.toml x "), ["u0", "u1"])
        self.assertEqual(self.offered("./design words --kind g"), ["greedy"])


class Words(WithText):
    def test_other_words(self):
        for words in (("completion",), ("completion", "fish"), ("completion", "")):
            status, out, said = self.home.run(*words)
            self.assertEqual((status, out), (1, ""))
            self.assertRegex(said, r"\Aaeth: a completion is for bash or zsh; [^\n]*\n\Z")
        page = self.home.run("help", "completion")
        self.assertEqual(page[0], 0)
        self.assertEqual(self.home.run("completion", "--help"), page)
        self.assertEqual(self.home.built(), 0)

    def test_a_text_that_cant_be_written(self):
        reader, pipe = os.pipe()
        os.close(reader)
        with open("/dev/full", "wb") as full, open(pipe, "wb") as unread:
            for out in (full, unread):
                self.assertEqual(self.home.run("completion", "bash", out=out)[0], 5)
