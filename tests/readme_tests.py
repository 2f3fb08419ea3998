"""Tests of README.md, of the pages to follow and of the pages of help: each command that they show prints what stands there;
and of all documents: each file that they name is there."""
import re
import shutil
import subprocess
import unittest

from home import Home, PROGRAM, TOP

README = (TOP / "README.md").read_text()
# Pages whose commands are run, each from its first to its last one in a folder of its own; and how many blocks some have at least.
FOLLOWED = {str(page.relative_to(TOP)): page.read_text() for page in (TOP / "README.md", *sorted((TOP / "docs").glob("*.md")), TOP / "bench/README.md")}
LEAST = {"docs/GUIDE.md": 8, "docs/TOOLS.md": 1}
DOCUMENTS = {path: path.read_text() for place in ("*.md", "docs/*.md", "bench/*.md", "crates/*/README.md")
             for path in sorted(TOP.glob(place))}


def sessions(page):
    """The commands of each block with prompts, and what stands below each."""
    for block in re.findall(r"^```\n(\$ .*?)^```", page, re.M | re.S):
        parts = re.split(r"^\$ ", block.replace("\\\n", ""), flags=re.M)[1:]
        yield [tuple(part.split("\n", 1)) for part in parts]


def anchors(text):
    """The headings of a document, as a link names them."""
    headings = re.findall(r"^#+ (.*)", text, re.M)
    return {re.sub(r"[^\w -]", "", heading.lower()).replace(" ", "-") for heading in headings}


class Documents(unittest.TestCase):
    def test_links(self):
        for path, text in DOCUMENTS.items():
            for name, link, anchor in re.findall(r"\[([^]]*)\]\((?!http)([^)#]*)#?([^)]*)\)", text):
                target = (path.parent / link).resolve() if link else path
                self.assertTrue(target.exists(), f"{path}: {link}")
                if anchor:
                    self.assertIn(anchor, anchors(target.read_text()), path)
                word = re.fullmatch(r"`(\w+)`", name)
                if word and target.suffix in (".antt", ".rt"):
                    has = re.search(rf"\b{word[1]}\b", target.read_text() + " " + target.stem)
                    self.assertTrue(has, f"{path}: {word[1]}")

    def test_paths(self):
        """A path from the top, or within the crate whose page names it; NAME stands for any. A crate and its edit."""
        for path, text in DOCUMENTS.items():
            own = path.parent if path.parent.parent.name == "crates" else TOP
            within = r"(?:crates|src|specs|proofs|must-fail)/" if own != TOP else "crates/"
            for name in re.findall(rf"`({within}[\w/+]+\.\w+)`", text):
                if "NAME" not in name:
                    home = TOP if name.startswith("crates/") else own
                    self.assertTrue((home / name).exists(), f"{path}: {name}")
            for crate, edit in re.findall(r"\| (aeth_\w+) \| `(\w+\.edit)` \|", text):
                self.assertTrue((TOP / "crates" / crate / "must-fail" / edit).exists(), f"{path}: {crate}/{edit}")

    def test_crates(self):
        """The page of each crate names what it stands on, as crates.txt does."""
        for line in (TOP / "crates.txt").read_text().splitlines()[1:]:
            crate, below = line.split(":")
            said = re.search(r"Stands on (.*?)\.(?=\s|$)", DOCUMENTS[TOP / "crates" / crate / "README.md"], re.S)
            self.assertEqual(set(re.findall(r"`(\w+)`", said[1])), set(below.split()), crate)
            self.assertRegex(README + DOCUMENTS[TOP / "docs/ARCHITECTURE.md"], rf"\b{crate}\b")


@unittest.skipUnless(PROGRAM, "there is no program: `./aeth` or `rt ci` builds it")
class Readme(unittest.TestCase):
    @classmethod
    def setUpClass(cls):
        cls.home = Home(PROGRAM)
        cls.addClassCleanup(cls.home.end)
        cls.home.run("chip", "examples/pair.toml")

    def shell(self, command):
        """What a command prints on both streams."""
        how = {"cwd": self.home.top, "env": self.home.settings, "check": False, "capture_output": True}
        ran = subprocess.run(["sh", "-c", command], **how)
        return ran.stdout.decode() + ran.stderr.decode()

    def has_files(self, command):
        """Whether the files that a command reads are there: a few are those of a reader's own design."""
        read = re.sub(r">\s*\S+|&&.*", "", command).split()
        return all((self.home.top / word).exists() for word in read if re.search(r"\.(toml|plan|csv|log)$", word))

    def test_sessions(self):
        for name, page in FOLLOWED.items():
            found = list(sessions(page))
            self.assertGreaterEqual(len(found), LEAST.get(name, 0), name)
            for session in found:
                for command, text in session:
                    if self.has_files(command):
                        self.assertEqual(self.shell(command), text, command)

    def test_table_of_commands(self):
        rows = re.findall(r"^\| `[^|]*` \| `(\./aeth [^|]*)` \| (.*) \|$", README, re.M)
        self.assertGreater(len(rows), 5)
        for command, prints in rows:
            told = self.shell(command)
            for text in re.findall(r"`([^`]*)`", prints):
                self.assertIn(text + "\n", told, command)

    def test_commands_without_their_text(self):
        """They end with status 0."""
        blocks = [block for page in FOLLOWED.values() for block in re.findall(r"^```sh\n(.*?)^```", page, re.M | re.S)]
        self.assertGreater(len(blocks), 5)
        for block in blocks:
            for command in re.split(r"\n(?=\S)", re.sub(r" *#.*", "", block.replace("\\\n", ""))):
                if command.startswith(("./aeth ", "./draw ", "./design ")) and self.has_files(command):
                    told = self.shell(f"({command.strip()}) >/dev/null || echo ended with $?")  # it may tell its progress
                    self.assertNotIn("ended with", told, command)

    def test_commands_of_the_pages(self):
        shutil.copy(self.home.top / "examples/one.plan", self.home.top / "one.plan")
        for page in sorted((TOP / "aeth.d/help").iterdir()):
            text = re.sub(r" *\\\n *", " ", page.read_text())
            for command, told in re.findall(r"^  (\./aeth (?!help|COMMAND|--version).*\S)\n((?:      .*\n)*)", text, re.M):
                command, _, beside = command.partition("        ")
                shown = self.shell(command)
                self.assertNotIn("usage", shown, command)
                if page.name != "aeth":
                    for line in filter(None, [beside.strip(), *map(str.strip, told.splitlines())]):
                        self.assertIn(line + "\n", shown, command)
