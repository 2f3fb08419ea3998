"""A folder with the scripts and a small tree of crates, in which they are tried, and a stand-in for `rt`."""
import os
import pathlib
import pty
import shutil
import subprocess
import tempfile
import unittest

TOP = pathlib.Path(__file__).resolve().parent.parent
PLACES = (TOP / "crates/aeth/out/aeth", TOP / "out/aeth")
PROGRAM = next((place for place in PLACES if os.access(place, os.X_OK)), None)

# As `rt try` it tells its words, the files that it is handed, and the end of a run. As `rt ci` it tells what that tells, and its program is that of $PROGRAM, or one that tells its sources and words. It fails where
# a source is broken or where the library has none, and changes a source meanwhile where $CHANGES names one.
RT = """#!/bin/sh
[ "$1" = version ] && echo "a stand-in for the kit" && exit 0
if [ "$1" = try ]; then
    shift
    echo "$PWD: $*"
    while [ "$1" != -- ]; do [ "$1" != --data ] || cat "${2#*=}"; shift 2; done
    cat >&2 <<END
${TOLD-refused unit c0 0 back 1}
checked: ended status=${STATUS:-3}
run=ended status=${STATUS:-3} runners=1 proved=no
END
    exit "${STATUS:-3}"
fi
case $PWD in */low) echo "ahead: $(echo $(ls crates))" >> "$BUILDS"; exit 0 ;; esac
if [ -n "$2" ]; then
    shift
    echo "early: $*, $RT_JOBS at once" >> "$BUILDS"
    for crate; do echo "rt: $crate proved"; done
    [ -z "$EARLY" ] || echo "error[proof]: it is early"
    exit "${EARLY:-0}"
fi
echo built >> "$BUILDS"
for crate in aeth_base aeth_middle aeth; do
    echo "== $crate"
    echo "rt: $crate proved"
    [ -z "$SLOW" ] || sleep "$SLOW"
done
cat crates/*/src/*.rt | grep -q broken && echo "error[proof]: it is broken" && exit 1
[ -f crates/aeth_base/src/lib.rt ] || { echo "error[file]: no source"; exit 1; }
[ ! -e crates/aeth_unused ] && [ ! -e crates/aeth_base/must-fail ] || { echo "error[file]: too much was copied"; exit 1; }
mkdir -p crates/aeth/out
sources=$(cat crates/*/src/*.rt | tr '\\n' ' ')
[ -z "$CHANGES" ] || echo changed >> "$CHANGES"
if [ -n "$PROGRAM" ]; then
    cp "$PROGRAM" crates/aeth/out/aeth
else
    { echo '#!/bin/sh'; echo "echo \\"$sources: \\$*\\""; echo 'cat >&2'; echo 'exit 3'; } > crates/aeth/out/aeth
    chmod +x crates/aeth/out/aeth
fi
"""


class Home:
    """The folder, and how its scripts are run. With `program` the stand-in for `rt` builds the program itself."""

    def __init__(self, program=None, name="home"):
        self.room = pathlib.Path(tempfile.mkdtemp(prefix="aeth-tests-"))
        self.top, self.builds = self.room / name, self.room / "builds"
        self.top.mkdir()
        for name in ("aeth", "aeth.d", "draw", "draw.d", "design", "design.d", "common.d", "rtl", "examples", "docs"):
            copy = shutil.copytree if (TOP / name).is_dir() else shutil.copy2
            copy(TOP / name, self.top / name)
        self.put("HANDLES", "Handles allowed: none.\n")
        lines = ("# lowest first", "aeth_base: itoa", "aeth_middle: aeth_base toml", "aeth: aeth_middle aeth_base", "aeth_unused: aeth_base")
        self.put("crates.txt", "".join(line + "\n" for line in lines))
        self.put("crates/aeth_unused/src/lib.rt", "unused\n")
        self.put("crates/aeth_base/must-fail/it.edit", "file: src/lib.rt\n")
        self.put("crates/aeth_base/src/lib.rt", "base\n")
        self.put("crates/aeth_middle/src/lib.rt", "middle\n")
        self.put("crates/aeth/src/main.rt", "main\n")
        rt = self.room / "bin/rt"
        rt.parent.mkdir()
        rt.write_text(RT)
        rt.chmod(0o755)
        self.settings = {**os.environ, "PATH": f"{rt.parent}:{os.environ['PATH']}", "BUILDS": str(self.builds)}
        # (no program of an earlier test is taken over: there is no such folder, and none can be made)
        self.settings.update(PROGRAM=str(program or ""), SLOW="", CHANGES="", XDG_CACHE_HOME="/dev/null")

    def end(self):
        shutil.rmtree(self.room)

    def put(self, name, text):
        file = self.top / name
        file.parent.mkdir(parents=True, exist_ok=True)
        file.write_text(text)
        return file

    def run(self, *words, given=b"", script="aeth", folder=None, out=subprocess.PIPE, **settings):
        """The status, the output and the messages of a script."""
        words = [str(self.top / script), *map(str, words)]
        how = {"cwd": folder or self.top, "env": {**self.settings, **settings}, "check": False}
        ran = subprocess.run(words, input=given, stdout=out, stderr=subprocess.PIPE, **how)
        return ran.returncode, (ran.stdout or b"").decode(), ran.stderr.decode()

    def draw(self, *words, **how):
        return self.run(*words, script="draw", **how)

    def design(self, *words, **how):
        return self.run(*words, script="design", **how)

    def on_terminal(self, *words, script="aeth", **settings):
        """The status of a script, and what it says where its messages go to a terminal."""
        try:
            ours, theirs = pty.openpty()
        except OSError as error:
            raise unittest.SkipTest(f"there is no terminal to try: {error}") from error
        how = {"cwd": self.top, "env": {**self.settings, **settings}, "stdin": subprocess.DEVNULL}
        ran = subprocess.Popen([self.top / script, *words], stdout=subprocess.DEVNULL, stderr=theirs, **how)
        os.close(theirs)
        said = b""
        while True:
            try:
                part = os.read(ours, 1 << 16)
            except OSError:
                break
            if not part:
                break
            said += part
        os.close(ours)
        return ran.wait(), said.decode()

    def built(self):
        """How many builds there were."""
        return self.builds.read_text().count("built") if self.builds.exists() else 0
