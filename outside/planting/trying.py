"""Plants an edit in a copy of the tree, has the copy checked, and takes the edit out again."""

import json
import os
import re
import shutil
import signal
import subprocess
import tempfile
import time
from contextlib import contextmanager
from dataclasses import dataclass, field
from pathlib import Path

NO_RUST = re.compile(r"^(?:\./)?(src/\S+?:\d+:\d+): error(?:\[([\w-]+)\])?:? ?(.*)")
NO_FIT = re.compile(r"^(?:\./)?((?:proofs|specs)/\S+?:\d+:\d+): error:? ?(.*)")
GONE = re.compile(
    r"has no field|is not in scope|has no `|was not admitted|was rejected|are projected with"
    r"|^[^,]*\(nearest: "
)
NO_FACT = re.compile(r"^note: (?:\./)?(src/\S+?:\d+:\d+): (.*)")
FALSE = re.compile(r"allow values at which this goal is false")
OWN_PROOF = re.compile(r"(proofs/(\S+)/(?:Answers|Invariants)\.antt):")
MARK = "planted.json"  # at the top of a copy while an edit stands in it

SHOWN = "refused at a fact shown false"
SRC = "refused at a fact not proved"
PROOF = "refused at a proof file"
NAMES = "refused by a name that went"
OUTPUT = "refused by its program's output"
SURVIVED = "survived"
HARMLESS = "survived, harmless"
NO_BUG = "does not compile"
UNCLEAR = "unclear"
VERDICTS = (SHOWN, SRC, PROOF, NAMES, OUTPUT, SURVIVED, HARMLESS, UNCLEAR)


@dataclass
class Trial:
    edit: object
    verdict: str
    seconds: float
    place: str = ""
    says: str = ""
    facts: list = field(default_factory=list)  # in src: (place, what is not proved)
    unfit: list = field(default_factory=list)  # the same in proofs/ and specs/
    lacking: str = ""  # the functions whose proof files were away
    log: str = ""

    @property
    def shown_false(self):
        return [it for it in self.facts if FALSE.search(it[1])]

    @property
    def is_by_name(self):
        """Whether all that is sure is that proof files name what the edit took away."""
        return not self.shown_false and all(GONE.search(says) for _, says in self.unfit)

    def own_proofs(self):
        """The proof files that are refused, each with its function; none if theory is refused."""
        found = [OWN_PROOF.match(place) for place, _ in self.unfit]
        return dict(it.groups() for it in found) if all(found) else {}


def run(words, folder, seconds, **how):
    """What a command writes, and its exit status; none if its time was over."""
    how = {"stdin": subprocess.DEVNULL, "stderr": subprocess.STDOUT, **how}
    given = how.pop("input", None)
    started = subprocess.Popen(
        words, cwd=folder, stdout=subprocess.PIPE, start_new_session=True, **how
    )
    try:
        wrote, _ = started.communicate(given, timeout=seconds)
        return wrote, started.returncode
    except BaseException as stopped:
        os.killpg(started.pid, signal.SIGKILL)
        wrote, _ = started.communicate()
        if isinstance(stopped, subprocess.TimeoutExpired):
            return wrote, None
        raise


def judged(edit, wrote, status, seconds):
    """A trial by what `rt check` wrote."""
    lines = wrote.splitlines()
    facts = [it.groups() for it in map(NO_FACT.match, lines) if it]
    unfit = [it.groups() for it in map(NO_FIT.match, lines) if it]
    broken = [it.groups() for it in map(NO_RUST.match, lines) if it]
    trial = Trial(edit, UNCLEAR, seconds, facts=facts, unfit=unfit, log=wrote)
    if status is None:
        trial.says = "the time was over"
    elif status == 0 and "logic=proved" in wrote:
        trial.verdict = SURVIVED
    elif broken:
        place, name, text = broken[0]
        trial.verdict, trial.place, trial.says = NO_BUG, place, f"[{name}] {text}"
    elif unfit:
        trial.verdict = NAMES if trial.is_by_name else PROOF
        trial.place, trial.says = unfit[0]
    elif facts:
        trial.verdict = SHOWN if trial.shown_false else SRC
        trial.place, trial.says = (trial.shown_false or facts)[0]
    else:
        trial.says = next(iter(lines[-1:]), "rt check wrote nothing")
    return trial


def mend(folder):
    """Takes out what is planted in a copy, also by a run that was killed."""
    mark = folder / MARK
    if mark.exists():
        left = json.loads(mark.read_text(encoding="utf-8"))
        (folder / left["file"]).write_text(left["text"], encoding="utf-8")
        for n, place in enumerate(left.get("away", ())):
            if (folder / f"away-{n}").exists():
                (folder / f"away-{n}").rename(folder / place)
        mark.unlink()


class Tree:
    """A copy of the tree, in which one edit at a time stands."""

    def __init__(self, folder, seconds, processors):
        self.folder = folder
        self.seconds = seconds
        self.processors = processors
        self.proved = set()

    @contextmanager
    def changed(self, edit, is_planted, away=()):
        """The edit stands, or not, and files of its crate are away."""
        text = (self.folder / edit.file).read_text(encoding="utf-8")
        places = [f"crates/{edit.crate}/{it}" for it in away]
        mark = json.dumps({"file": edit.file, "text": text, "away": places})
        (self.folder / MARK).write_text(mark, encoding="utf-8")
        try:
            for n, place in enumerate(places):
                (self.folder / place).rename(self.folder / f"away-{n}")
            if is_planted:
                new = text[: edit.start] + edit.new + text[edit.end :]
                (self.folder / edit.file).write_text(new, encoding="utf-8")
            yield
        finally:
            mend(self.folder)

    def check(self, crate, *more):
        words = ["rt", "check", *more, "--jobs", str(self.processors)]
        wrote, status = run(words, self.folder / "crates" / crate, self.seconds)
        return wrote.decode("utf-8", errors="replace"), status

    def try_edit(self, edit):
        mend(self.folder)
        if edit.crate not in self.proved:
            wrote, status = self.check(edit.crate)
            if status != 0:
                return Trial(edit, UNCLEAR, 0, says="not proved without the edit", log=wrote)
            self.proved.add(edit.crate)
        trial = self.plant(edit)
        own = trial.own_proofs() if trial.verdict == NAMES else {}
        if own:
            trial = self.again(edit, trial, own)
        if trial.verdict == SURVIVED:
            self.proved.discard(edit.crate)
        return trial

    def plant(self, edit, away=()):
        with self.changed(edit, True, away):
            begun = time.monotonic()
            wrote, status = self.check(edit.crate)
            trial = judged(edit, wrote, status, time.monotonic() - begun)
            folder = self.folder / "crates" / edit.crate
            if trial.verdict == SURVIVED and (folder / "src/main.rt").exists():
                run_program(folder, edit.crate, trial, self.seconds)
        return trial

    def again(self, edit, first, own):
        """Without the proof files that are refused, behind which a survivor could hide."""
        paths = sorted({it.replace("/", "::") for it in own.values()})
        trial = self.plant(edit, own)
        trial.lacking = first.lacking = ", ".join(paths)
        trial.seconds += first.seconds
        log = f"{first.log}\n\nwithout the proof files of {trial.lacking}:\n\n{trial.log}"
        proves = trial.verdict in (SURVIVED, OUTPUT)
        if trial.verdict in (SHOWN, SRC):
            # what is not proved tells of the edit only if all is proved where it is not planted
            with self.changed(edit, False, own):
                names = [f"{edit.crate}::{it}" for it in paths]
                proves = all(self.check(edit.crate, "--only", it)[1] == 0 for it in names)
        kept = trial if proves else first
        kept.log = log
        return kept


def content(file):
    return file.read_bytes() if file.exists() else b""


def run_program(folder, name, trial, seconds):
    """Runs the program as the gate does, and compares what it writes."""
    made = folder / "out" / name
    made.unlink(missing_ok=True)
    built, _ = run(["rt", "run"], folder, seconds)
    if not made.exists():
        trial.verdict, trial.says = UNCLEAR, "the program was not built"
        trial.log += built.decode("utf-8", errors="replace")
        return
    with tempfile.TemporaryDirectory() as room:
        data = Path(room) / "data"
        if (folder / "data").is_dir():
            shutil.copytree(folder / "data", data)
        data.mkdir(exist_ok=True)
        words = [str(made), *content(folder / "args").decode("utf-8").splitlines()]
        pipes = {"stdin": subprocess.PIPE, "stderr": subprocess.DEVNULL}
        wrote, status = run(words, data, 120, input=content(folder / "stdin"), **pipes)
    wanted = content(folder / "stdout")
    if status is None:
        trial.verdict, trial.says = OUTPUT, "the program had not ended after 120 seconds"
    elif status != int(content(folder / "status") or 0):
        trial.verdict, trial.says = OUTPUT, f"the program ended with status {status}"
    elif wrote != wanted:
        same = os.path.commonprefix([wrote, wanted])
        line = same.count(b"\n")
        got = next(iter(wrote.split(b"\n")[line:]), b"")[:120].decode("utf-8", errors="replace")
        trial.verdict, trial.place = OUTPUT, f"stdout:{line + 1}"
        trial.says = f"the program wrote `{got}` here"


def copy_tree(source, place):
    """Copies a tree with what its checks kept, so that only what an edit changes is proved anew."""
    shutil.copytree(source / "crates", place / "crates", symlinks=True)
    for name in ("crates.txt", "HANDLES"):
        if (source / name).exists():
            shutil.copy2(source / name, place)


@contextmanager
def copies(root, tree, number):
    """As many trees as there are jobs: the one named, or else a copy of the root; and copies."""
    if tree:
        mend(tree)
    # not in the repository, whose gate refuses sources that stand beside its crates
    with tempfile.TemporaryDirectory(prefix="plant-", ignore_cleanup_errors=True) as room:
        made = [Path(room) / str(n) for n in range(2 if tree else 1, number + 1)]
        for place in made:
            copy_tree(tree or root, place)
        yield [tree, *made] if tree else made
