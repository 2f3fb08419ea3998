"""Tests of what documents say: short sentences, words and files that are there, numbers that are one wherever they stand, and
the pages CALLING.md, whose callers and contracts are those of the sources."""
import fnmatch
import pathlib
import re
import subprocess
import unittest

import contracts
from home import TOP
import sentences

PAGES = [TOP / "README.md", *sorted((TOP / "docs").glob("*.md")), TOP / "bench/README.md"]
CALLING = sorted(TOP.glob("crates/*/CALLING.md"))
# Where a word of a document may stand: the sources, what they are tried on, and what the scripts take.
SOURCES = ("crates/*/src/**/*.rt", "crates/*/specs/**/*.antt", "crates/*/proofs/**/*.antt", "crates/*/must-fail/*", "crates/*/data/*",
           "*.d/**/*", "rtl/*", "tests/*", "bench/*.*", "examples/*", "aeth", "design", "draw", "crates.txt", ".ci/*")
# Words of the machine, of other tools, and letters of formulas.
ELSEWHERE = {"mypy", "pyflakes3", "twinwave", "HashMap", "RT_JOBS", "expand", "tau", "theta_b", "e309"}
NUMBERS = {"one": 1, "two": 2, "three": 3, "four": 4, "five": 5, "six": 6, "seven": 7, "eight": 8, "nine": 9, "ten": 10}
# What documents call a limit, and the definition that has it.
LIMITS = {
    r"(\d[\d,]*) routers with 8": ("aeth_chip", "max_routers"), r"routers with (\d+) (?:links|outgoing)": ("aeth_chip", "max_ports"),
    r"(\d[\d,]*) network interfaces": ("aeth_chip", "max_nis"), r"limit of (\d[\d,]*)\.": ("aeth_chip", "max_links"),
    r"(\d[\d,]*) slots a table": ("aeth_base", "max_slots"), r"1 to (\d[\d,]*) cycles on a link": ("aeth_base", "max_link_delay"),
    r"links of 1 to (\d[\d,]*) cycles": ("aeth_base", "max_link_delay"), r"past (\d[\d,]*) cores": ("aeth_app", "max_cores"),
    r"are more than (\d[\d,]*) cores": ("aeth_app", "max_cores"),
    r"more than (\d+) cores are fixed": ("aeth_app", "seats_per_ni"), r"past \d+ cores, (\d[\d,]*) conn": ("aeth_app", "max_connections"),
    r"more than (\d[\d,]*) connections;": ("aeth_app", "max_connections"), r"and (\d[\d,]*) use cases": ("aeth_app", "max_uses"),
    r"the use cases aren't 1 to (\d[\d,]*)": ("aeth_app", "max_uses"), r"past (\d[\d,]*) cycles": ("aeth_base", "max_cycles"),
    r"number of cycles, 1 to (\d[\d,]*)": ("aeth_base", "max_cycles"), r"up to (\d[\d,]*) credits": ("aeth_base", "credits_per_flit"),
    r"in switches more than (\d[\d,]*)": ("aeth_trace", "max_switch_rows"),
    r"(?:more than|and) (\d[\d,]+) bytes": ("aeth_io", "max_file_bytes"),
}


def prose(page: pathlib.Path) -> str:
    """A page without its blocks of code."""
    return re.sub(r"^ *```.*?^ *```$", "", page.read_text(), flags=re.M | re.S)


def functions(crate: pathlib.Path) -> set[str]:
    """What the sources of a crate name as a function, a type, a trait or one of its items."""
    text = "\n".join(file.read_text() for file in crate.glob("src/**/*.rt"))
    return set(re.findall(r"\b(?:fn|struct|enum|trait|mod|ensures|impl(?:<[^>]*>)?) (\w+)", text))


class Sentences(unittest.TestCase):
    def test_documents(self):
        for page in PAGES + CALLING:
            self.assertEqual(sentences.too_long(sentences.blocks(page.read_text())), [], page)

    def test_pages_of_help(self):
        pages = {page.name: page.read_text() for page in sorted((TOP / "aeth.d/help").iterdir())}
        pages.update((name, sentences.docstring(TOP / name)) for name in ("design", "draw"))
        for name, page in pages.items():
            self.assertEqual(sentences.too_long(sentences.help_blocks(page)), [], name)

    def test_what_is_counted(self):
        """A link, a list in a cell and a piece of code don't hide the end of a sentence."""
        page = "Some words, [a link. Two](x.md) and `code. x`.\nThen more.\n\n| a cell; of two | b |\n\n- An item.\n\n```\nno words\n```\n"
        found = [found for found in sentences.sentences(sentences.blocks(page)) if found.strip()]
        self.assertEqual(len(found), 7, found)
        self.assertEqual(len(sentences.too_long(iter(["word " * 31]))), 1)
        self.assertEqual(sentences.too_long(iter(["word " * 30 + ". " + "word " * 30])), [])


class Words(unittest.TestCase):
    """No document names what isn't there."""

    def test_words(self):
        known = set(ELSEWHERE)
        for place in SOURCES:
            for file in TOP.glob(place):
                known.update((file.stem, file.name.split(".")[0]))
                if file.is_file() and file.suffix not in (".png", ".pyc"):
                    known.update(re.findall(r"\w+", file.read_text(errors="replace")))
        for page in PAGES + CALLING + sorted(TOP.glob("crates/*/README.md")):
            commands = re.findall(r"^```sh\n.*?^```|^\$ [^\n]*", page.read_text(), re.M | re.S)
            made = set(re.findall(r"\w+", " ".join(commands)))  # by commands of the page
            for code in re.findall(r"`([^`]+)`", prose(page)):
                for word in re.findall(r"[^\W\d]\w{2,}", code):
                    begins = word.endswith("_") and any(other.startswith(word) for other in known)
                    self.assertTrue(begins or word in known or word in made, f"{page}: {word} of {code}")

    def test_definitions_of_the_rules(self):
        """`crate/File`, and behind a comma a further file of it, is there and has the words that stand in brackets behind it."""
        found = 0
        for line in re.findall(r"Defined: (.*?)(?=\n\n|\n- Kept|\. Kept by)", prose(TOP / "docs/RULES.md"), re.S):
            crate = file = None
            for bracket, code in re.findall(r"(\()?`([\w/.]+)`", re.sub(r"\(([^)]*)\)", lambda all: all[0].replace("`, `", "`, (`"), line)):
                if "/" in code:
                    crate, code = code.split("/", 1)
                if not bracket and code[0].isupper():
                    file = TOP / "crates" / crate / "specs" / f"{code}.antt"
                    self.assertTrue(file.exists(), file)
                    found += 1
                else:
                    self.assertRegex(file.read_text(), rf"(?<![\w-]){re.escape(code)}(?![\w-])", f"{file}: {code}")
        self.assertGreater(found, 60)

    def test_clauses_of_the_crates(self):
        """What README's table of crates names as a clause is a call, a type or a module of the crate."""
        rows = re.findall(r"^\| \[(aeth\w*)\]\(\S+\) \| .* \| (.*?) ?\|$", (TOP / "README.md").read_text(), re.M)
        self.assertEqual([row[0] for row in rows if not (TOP / "crates" / row[0]).exists()], [])
        for crate, clauses in rows:
            known = functions(TOP / "crates" / crate)
            for code in re.findall(r"`([^`/]+)`", clauses):
                for word in re.findall(r"\w+", code.replace("impl ", "")):
                    self.assertTrue(word in known, f"{crate}: {word} of {code}")

    def test_commands_in_lines(self):
        """A command within a line is one that there is, and one that looks something up finds it. README has each command."""
        verbs = {"./aeth": {page.name for page in (TOP / "aeth.d/help").iterdir()} | {"help"}}
        for name in ("design", "draw"):
            verbs[f"./{name}"] = set(re.findall(rf"^{name} ([a-z]+) ", sentences.docstring(TOP / name), re.M)) | {"help"}
        told = (TOP / "README.md").read_text()
        for script, known in verbs.items():
            for verb in known - {"help", "aeth"}:
                self.assertTrue(re.search(rf"(?:`|{script} ){verb}[` ]", told), f"{script} {verb}")
        for page in PAGES:
            for code in re.findall(r"`([^`]+)`", re.sub(r"\s+", " ", prose(page))):
                script, _, rest = code.partition(" ")
                if script in verbs and re.match("[a-z]", rest):
                    self.assertTrue(rest.split()[0] in verbs[script], f"{page}: {code}")
                if code.startswith("head -qn") or (code.startswith("git grep") and (TOP / ".git").exists()):
                    ran = subprocess.run(["sh", "-c", code], cwd=TOP, capture_output=True, check=False)
                    self.assertTrue(ran.stdout, f"{page}: {code}")

    def test_every_script(self):
        """The map has each file of the scripts and of the hardware, by its name or by how names begin, and no others."""
        table = re.search(r"^\| Of \| What \| Files \|.*?\n\n", (TOP / "docs/ARCHITECTURE.md").read_text(), re.M | re.S)[0]
        told = re.findall(r"`([\w.]+\.\w+|\w+_\*)`", table)
        files = {file.name for place in ("draw.d", "design.d", "common.d", "rtl") for file in (TOP / place).iterdir() if file.is_file()}
        self.assertEqual([name for name in told if not any(fnmatch.fnmatch(file, name) for file in files) and not name.endswith((".d", ".md"))], [])
        self.assertEqual([file for file in sorted(files) if not any(fnmatch.fnmatch(file, name) for name in told)], [])

    def test_every_crate(self):
        """README's table has each library and program, and the map has each crate."""
        crates = [line.split(":")[0] for line in (TOP / "crates.txt").read_text().splitlines()[1:]]
        rows = re.findall(r"^\| \[(aeth\w*)\]\(", (TOP / "README.md").read_text(), re.M)
        self.assertEqual(sorted(rows), sorted(crate for crate in crates if not crate.endswith(("_tests", "_callers"))))
        layers = re.findall(r"\baeth\w*", re.search(r"^\| Layer.*?\n\n", (TOP / "docs/ARCHITECTURE.md").read_text(), re.M | re.S)[0])
        self.assertEqual(sorted(set(crates) - set(layers)), [])

    def test_pages_that_are_quoted(self):
        """The sentences of the headline are those of its file."""
        record = re.search(r"^```\n(pub record Headline.*?)^```", (TOP / "docs/PROMISE.md").read_text(), re.M | re.S)[1]
        source = (TOP / "crates/aeth_cli/specs/Headline.antt").read_text()
        for line in record.splitlines():
            self.assertIn(line.replace(" ..", "").strip(), source)


class Numbers(unittest.TestCase):
    def test_limits(self):
        """A limit is the number of its definition wherever a document has it."""
        for limit, (crate, name) in LIMITS.items():
            said = [(number, page.name) for page in PAGES[:-1] for number in re.findall(limit, re.sub(r"\s+", " ", page.read_text()))]
            self.assertTrue(said, limit)
            text = (TOP / "crates" / crate / "specs/Limits.antt").read_text()
            value = re.search(rf"^{name} = ([\d_]+)", text, re.M)
            self.assertTrue(value, name)
            for number, page in said:
                self.assertEqual(int(number.replace(",", "")), int(value[1].replace("_", "")), f"{page}: {limit}")

    def test_rows_of_transcripts(self):
        lines = (TOP / "crates/aeth_transcripts/stdin").read_text().splitlines()
        rows = sum(1 for line in lines if not line.startswith("#"))
        said = [number for page in PAGES for number in re.findall(r"some ([\d,]+) commands", re.sub(r"\s+", " ", page.read_text()))]
        self.assertGreaterEqual(len(said), 2)
        self.assertEqual({int(number.replace(",", "")) for number in said}, {rows // 100 * 100})

    def test_wrong_bodies(self):
        """A crate has as many as STYLE allows at most, and DECISIONS tells those of whom it names."""
        most = NUMBERS[re.search(r"edits a crate, (\w+) at most", (TOP / "docs/STYLE.md").read_text())[1]]
        counted = {crate.parent.name: len(list(crate.glob("*.edit"))) for crate in TOP.glob("crates/*/must-fail")}
        self.assertEqual(max(counted.values()), most)
        crate, said = re.search(r"as\s+(aeth_\w+) has (\w+):", (TOP / "docs/DECISIONS.md").read_text()).groups()
        self.assertEqual(counted[crate], NUMBERS[said])

    def test_crates_of_laws(self):
        text = (TOP / "docs/ARCHITECTURE.md").read_text()
        laws = re.search(r"^\| laws of runs.*?(?=^\| runs)", text, re.M | re.S)[0].count("| aeth_")
        self.assertEqual(NUMBERS[re.search(r"In (\w+) crates nothing runs", text)[1]], laws + 1)

    def test_fuzzed_cases(self):
        """README tells how many cases of each command the tests try."""
        tried = re.search(r"--count.*?default=(\d[\d_]*)", (TOP / "tests/fuzz.py").read_text(), re.S)
        self.assertIn("A thousand turned files", (TOP / "README.md").read_text())
        if tried:
            self.assertEqual(int(tried[1]), 1000)

    def test_answers_of_formats(self):
        """The texts that FORMATS has as examples are rows of the transcripts."""
        printed = (TOP / "crates/aeth_transcripts/stdout").read_text()
        blocks = re.findall(r"^```\n(.*?)^```", (TOP / "docs/FORMATS.md").read_text(), re.M | re.S)
        shown = [block for block in blocks if re.match(r"(?:sim|chain) 1 \w+ ?\d|sim 1 \d|cycle,link.*\n\d", block)]
        self.assertGreaterEqual(len(shown), 3)
        for block in shown:
            self.assertIn(block, printed)

    def test_length(self):
        """All documents together are short enough to be read."""
        lines = sum(len(page.read_text().splitlines()) for page in PAGES[:-1])
        self.assertLessEqual(lines, 3300)
        self.assertLessEqual(len((TOP / "README.md").read_text().splitlines()), 400)
        self.assertLessEqual(len((TOP / "docs/DECISIONS.md").read_text().splitlines()), 500)


class Calling(unittest.TestCase):
    """The pages for who uses a crate alone."""

    def test_callers(self):
        """The caller of a page is proved: it is in the sources, word for word. Each file of the crate of callers stands in a page."""
        shown = set()
        for page in CALLING:
            form = r"`src/(\w+\.rt)` of \[(aeth_\w+)\].*?^```rust\n(.*?)^```"
            file, crate, text = re.search(form, page.read_text(), re.M | re.S).groups()
            source = (TOP / "crates" / crate / "src" / file).read_text()
            self.assertIn(text, source, page)
            if crate == "aeth_callers":
                self.assertEqual(text, source, page)
                shown.add(file)
        self.assertEqual(shown, {file.name for file in (TOP / "crates/aeth_callers/src").glob("*.rt")} - {"lib.rt", "answers.rt"})

    def test_contracts(self):
        """A page has each public call of its crates, each clause of it, each law, and no others."""
        for page in CALLING:
            text = page.read_text()
            calls = [call for crate in re.findall(r"`(aeth_\w+)`", text.splitlines()[0]) for call in contracts.calls_of(TOP / "crates" / crate)]
            self.assertTrue(calls, page)
            rows = []
            for call in (call for call in calls if not call.is_law):
                rows.append((f"**`{call.name}`**", call.takes))
                rows += [(clause_name(clause), clause.says) for clause in call.clauses]
            table = text.partition("## Laws")[0].partition("## Contracts")[2]
            said = re.findall(r"^\| (\S+) \| `(.*?)` \| .+ \|$", table, re.M)
            self.assertEqual(sorted(said), sorted(rows), page)
            laws = re.findall(r"^\| `(\w+)` \| ", text.partition("## Laws")[2], re.M)
            self.assertEqual(sorted(laws), sorted(call.name for call in calls if call.is_law), page)

    def test_reading(self):
        """What is read off a source: generic calls, clauses with and without a name, notes between them."""
        text = ("impl<F> Cost<F> {\n    /// It.\n    pub fn of(\n        &self,\n        used: u32, // none\n    ) -> u32\n"
                "        requires some { 1 ≤ used }\n        // why\n        ensures { let n = record { a = used } in result ≡ n.a }\n    {\n    }\n"
                "    fn own(&self) {}\n}\npub fn free<X>(x: X) {}\n")
        one, other = contracts.calls_in(text, False)
        self.assertEqual((one.name, one.takes, other.name), ("Cost::of", "(&self, used: u32) -> u32", "free"))
        self.assertEqual([(found.kind, found.name, found.says) for found in one.clauses],
                         [("requires", "some", "1 ≤ used"), ("ensures", "", "let n = record { a = used } in result ≡ n.a")])


def clause_name(clause: contracts.Clause) -> str:
    if clause.kind == "requires":
        return "*asks*"
    return f"`{clause.name}`" if clause.name else "*gives*"


if __name__ == "__main__":
    unittest.main()
