"""Rows of the transcripts that are refused, and those of cut files: what bench/model_files.py and bench/model.py say."""
import re
import sys
import unittest

from home import TOP

sys.path.insert(0, str(TOP / "bench"))

import model  # noqa: E402
import model_files as files  # noqa: E402

CRATE = TOP / "crates/aeth_transcripts"
DATA = CRATE / "data"
RUN = ("chip", "app", "plan", "words", "receivers", "switches")
COMMANDS = {
    "chip": ("chip",), "app": ("chip", "app"), "allocate": ("chip", "app"), "check": ("chip", "app", "plan"),
    "explain": ("chip", "app", "cert"), "tables": ("chip", "app", "use", "plan"), "route-tables": ("chip", "app", "use", "plan"),
    "simulate": RUN, "simulate-tables": RUN, "links": RUN, "audit": ("chip", "app", "plan", "switches", "log"),
}


def rows():
    """Each row of `stdin` with its answer: the lines of `out`, those of `err`, and the status."""
    asked = [line for line in (CRATE / "stdin").read_text().split("\n")[:-1] if not line.startswith("#")]
    answers = re.split(r"(?m)^\$ ", re.sub(r"(?m)^#.*\n", "", (CRATE / "stdout").read_text()))[1:]
    for row, answer in zip(asked, answers, strict=True):
        told, _, rest = answer.partition("\n")
        assert told == row, (told, row)
        text, _, status = rest.rpartition("status ")
        out, mark, err = text.rpartition("err\n") if "\nerr\n" in "\n" + text else (text, "", "")
        yield row, out, err, int(status)


def changed(data, change):
    """The bytes of a file after a change of a row."""
    if cut := re.fullmatch(r"first (\d+)", change):
        return data[: int(cut[1])]
    if many := re.fullmatch(r"(\d+) times (.*) before (.*)", change, re.S):
        items = "".join(many[2].replace("#", str(number)) for number in range(int(many[1])))
        return data.replace(text_of(many[3]), text_of(items) + text_of(many[3]), 1)
    old, new = change.split(" => ", 1)
    assert text_of(old) in data, change
    return data.replace(text_of(old), text_of(new), 1)


def text_of(word):
    return word.replace(";", "\n").encode()


def contents(row):
    """The words of a row, and what its files have."""
    words, *changes = row.split(" | ")
    words = words.split(" ")
    found = {word: (DATA / word).read_bytes() for word in words[1:] if (DATA / word).is_file()}
    for change in changes:
        name, what = change.split(": ", 1)
        found[name] = changed(found[name], what)
    return words, found


class Judge:
    """Judges the files of a command one after the other, and keeps what was read."""

    def __init__(self, words, found):
        self.kinds = COMMANDS[words[0]]
        self.words = dict(zip(("chip", "app", "plan", "use") if "use" in self.kinds else self.kinds, words[1:]))
        self.found = found
        self.chip = self.app = self.plan = None

    def refusal(self):
        """The refusal of the first file that breaks a rule, or nothing."""
        try:
            for kind in self.kinds:
                if kind in self.words:
                    self.judge(kind, self.words[kind])
        except files.Refused as refused:
            return f"{refused}\n"
        return None

    def judge(self, kind, word):
        if kind == "use":
            if word not in [it["name"] for it in self.app.uses]:
                files.refuse("use", 1, "UnknownUse", 0, word)
            return
        data = self.found.get(word)
        if data is None:  # (a missing file, behind a plan that isn't accepted)
            return
        files.judge_length(kind, data)
        if kind == "chip":
            self.chip = files.judge_chip(data)
        elif kind == "app":
            self.app = files.judge_app(data, self.chip)
        elif kind == "plan":
            self.plan = files.judge_plan(data, self.chip, self.app)
        elif kind == "switches":
            files.judge_switches(data, self.chip, self.app, self.plan[1])
        elif kind == "log":
            files.judge_log(data, self.chip)
        elif kind in ("words", "receivers"):
            files.judge_offers(kind, data, self.app)


class Refusals(unittest.TestCase):
    """Files that are refused by a rule of their own; a certificate and a chain have their models elsewhere."""

    def test_refused_files(self):
        many = 0
        for row, _, err, status in rows():
            if status == 2 and not re.match(r"refused (cert|chain) ", err) and row.split(" ")[0] in COMMANDS:
                words, found = contents(row)
                with self.subTest(row):
                    self.assertEqual(Judge(words, found).refusal(), err)
                many += 1
        self.assertGreater(many, 1_000)

    def test_files_that_fit(self):
        """Where a command has an answer of another kind no file breaks a rule."""
        many = 0
        for row, _, _, status in rows():
            if status in (0, 3) and row.split(" ")[0] in COMMANDS:
                words, found = contents(row)
                with self.subTest(row):
                    self.assertIsNone(Judge(words, found).refusal())
                many += 1
        self.assertGreater(many, 300)

    def test_cut_files(self):
        many = 0
        for row, out, err, status in rows():
            if ": first " in row and row.split(" ")[0] in ("simulate", "simulate-tables") and status == 0:
                words, found = contents(row)
                with self.subTest(row):
                    self.assertIsNone(Judge(words, found).refusal())
                    texts = [found[word].decode() for word in words[1:7]]
                    chip = model.Chip(texts[0])
                    run = model.run_of(chip, model.App(texts[1], chip), *texts[2:], int(words[7]))
                    self.assertEqual(run.text(), out)
                many += 1
        self.assertGreater(many, 0)


if __name__ == "__main__":
    unittest.main()
