"""A scratch copy of the repository in which wrong programs are given to the prover, one at a time: the mutants of audit/code, the must-fail edits of
audit/edits."""
import os
import pathlib
import re
import shutil
import signal
import subprocess
import tempfile
import time

import verdict

SURVIVES, NO_PROGRAM, UNDECIDED = "SURVIVES", "no program", "UNDECIDED"
LONGEST = 600  # seconds for one check


class Room:
    """The crates without their must-fail edits, with what rt kept of its checks of them, so that only the crate at hand is checked. It lies outside the
    repository, where rt ci refuses a source that is of no crate, and goes when the run ends."""

    def __init__(self, root):
        self.root = pathlib.Path(root)
        self.place = tempfile.TemporaryDirectory(prefix="hop-audit-")
        self.folder = pathlib.Path(self.place.name)
        shutil.copy(self.root / "crates.txt", self.folder)
        for crate in (self.root / "crates").iterdir():
            self.renew(crate.name)
            if (crate / "out").is_dir():
                shutil.copytree(crate / "out", self.crate(crate.name) / "out", symlinks=True)
        self.kept = self.folder / "kept"

    def crate(self, crate):
        return self.folder / "crates" / crate

    def renew(self, crate):
        """The crate as it stands, whatever was done to the copy; what rt keeps in its folder out stays."""
        for part in self.crate(crate).glob("*"):
            if part.name != "out":
                shutil.rmtree(part) if part.is_dir() else part.unlink()
        left_out = shutil.ignore_patterns("must-fail", "out")
        shutil.copytree(self.root / "crates" / crate, self.crate(crate), symlinks=True, ignore=left_out, dirs_exist_ok=True)

    def begin(self, crate):
        """Checks the crate as it stands. What is kept of this check is what each later one starts from."""
        status, log = self.check(crate)
        shutil.rmtree(self.kept, ignore_errors=True)
        if self.work(crate).is_dir():
            shutil.copytree(self.work(crate), self.kept)
        return judged(status, log), log

    def work(self, crate):
        """What a check keeps for the next one."""
        return self.crate(crate) / "out/incremental"

    def check(self, crate):
        """Exit status and log of a check; status None where it did not end."""
        said = self.folder / "said"
        with open(said, "w", encoding="utf-8") as out:
            run = subprocess.Popen(["rt", "check"], cwd=self.crate(crate), stdout=out, stderr=subprocess.STDOUT, start_new_session=True)
            try:
                status = run.wait(LONGEST)
            except subprocess.TimeoutExpired:
                os.killpg(run.pid, signal.SIGKILL)
                run.wait()
                status = None
        return status, said.read_text(encoding="utf-8", errors="replace").replace(f"{self.folder}/", "")

    def give(self, mutant, text, fresh):
        """The verdict on one mutant, its log and the seconds that it took."""
        crate, path = mutant.label.split("/")[0], self.folder / mutant.path
        began = time.monotonic()
        path.write_text(mutant.apply(text), encoding="utf-8")
        result, log = self.judge(crate, fresh)
        path.write_text(text, encoding="utf-8")
        return result, log, time.monotonic() - began

    def judge(self, crate, fresh):
        """What the prover makes of the crate as the room has it: over what was kept, and where that passes once more from nothing; or fresh, from
        nothing alone."""
        result, log = (None, "") if fresh else self.over_kept(crate)
        if result in (None, SURVIVES):
            # an empty folder: where there is none, rt begins with what a check of the same crate kept elsewhere on this machine
            shutil.rmtree(self.work(crate), ignore_errors=True)
            self.work(crate).mkdir(parents=True)
            status, log = self.check(crate)
            result = judged(status, log)
        return result, log

    def over_kept(self, crate):
        """One check, over a copy of what was kept of the crate as it stands."""
        shutil.rmtree(self.work(crate), ignore_errors=True)
        shutil.copytree(self.kept, self.work(crate))
        status, log = self.check(crate)
        return judged(status, log), log


def judged(status, log):
    """By the last verdict of the log: the libraries below may have had theirs before it."""
    last = re.findall(r"^logic=(\S+)", log, re.M)[-1:]
    if status == 0 and last == ["proved"]:
        return SURVIVES
    if status == 1 and last == ["not-proved"]:
        why, _ = verdict.reason(log)
        return UNDECIDED if why == verdict.NOTHING else why
    if status == 1 and re.search(r"error\[", log.rpartition("\nlogic=")[2]):
        return NO_PROGRAM
    return UNDECIDED
