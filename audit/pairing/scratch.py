"""A copy of the crates, to be bent, and rt run over it. The working tree is only read. The copy lies outside the repository, where rt ci refuses a
source that is of no crate, and goes when the run ends."""
import atexit
import filecmp
import pathlib
import re
import shutil
import subprocess
import tempfile

FOLDER = pathlib.Path("target/audit/together")
ROOM = pathlib.Path(tempfile.mkdtemp(prefix="hop-together-"))
REPLAY = ROOM / "crates/replay"
PATIENCE = 1500  # seconds that one command may take
atexit.register(shutil.rmtree, ROOM, ignore_errors=True)


def fresh():
    """The copy as the working tree has it; what rt proved in it before stays, and at first what rt kept of its checks here."""
    if not (ROOM / "crates").is_dir():
        for kept in pathlib.Path("crates").glob("*/out"):
            shutil.copytree(kept, ROOM / kept, symlinks=True)
    there = {path for path in pathlib.Path("crates").rglob("*") if path.is_file() and not {"must-fail", "out"} & set(path.parts)}
    there.add(pathlib.Path("crates.txt"))
    for path in there:
        copy = ROOM / path
        if not copy.exists() or not filecmp.cmp(path, copy):
            copy.parent.mkdir(parents=True, exist_ok=True)
            shutil.copy2(path, copy)
    for copy in (ROOM / "crates").rglob("*"):
        path = copy.relative_to(ROOM)
        if copy.is_file() and "out" not in path.parts and path not in there:
            copy.unlink()


def check(crate):
    """Checks a crate of the copy: the exit status, and all that was said."""
    return rt(crate, "check")[::2]


def rt(crate, *words, given=subprocess.DEVNULL):
    """Runs rt in a crate's folder of the copy: the exit status, what was written to standard output, and all that was said."""
    try:
        ran = subprocess.run(["rt", *words], cwd=ROOM / "crates" / crate, stdin=given, capture_output=True, timeout=PATIENCE)
    except subprocess.TimeoutExpired as over:
        return 124, b"", (over.stdout or b"").decode("utf-8", "replace") + "\nit took too long"
    return ran.returncode, ran.stdout, (ran.stdout + ran.stderr).decode("utf-8", "replace")


def refused_in(said):
    """The files in which something was refused, in the order told: CRATE/proofs/FILE. A crate's lines come after the one that chooses its jobs; of a
    function that is not proved, though no file of its proof is refused, the one is named that would have to be written."""
    files, crate = [], ""
    for line in said.split("\n"):
        begun = re.match(r"rt: chose --jobs \d+ for (\w+)", line)
        crate = begun.group(1) if begun else crate
        file = re.match(r"(?:\./)?(\S+?):\d+:\d+: error", line) or re.match(r"fn \S+: no proof: expected answers in (?:\./)?(\S+?);", line)
        if file and "was not admitted" not in line and f"{crate}/{file.group(1)}" not in files:
            files.append(f"{crate}/{file.group(1)}")
        unproved = re.match(rf"fn {crate}::(\S+): not proved$", line)
        folder = f"{crate}/proofs/{unproved.group(1).replace('::', '/')}/" if unproved else ""
        if unproved and not any(name.startswith(folder) for name in files):
            files.append(folder + "Answers.antt")
    return files


def shown(file):
    """A file as it is told: CRATE/FUNCTION, or CRATE/FILE."""
    return re.sub(r"/(Answers|Invariants|Proof)$", "", file.replace("/proofs/", "/").removesuffix(".antt"))


def without_bench():
    """The bench taken out, so that what stands above the rules can be asked where the bench fails."""
    laws = ROOM / "crates/rules/proofs"
    text = (laws / "Lib.antt").read_text(encoding="utf-8")
    (laws / "Lib.antt").write_text(re.sub(r"^(pub )?mod Bench\n", "", text, flags=re.M), encoding="utf-8")
    (laws / "Bench.antt").unlink()


def needed(crate):
    """The crate and what it stands on, but for the rules."""
    lines = pathlib.Path("crates.txt").read_text(encoding="utf-8").splitlines()
    uses = {line.split(":")[0].split()[0]: line.split(":")[1].split() for line in lines if ":" in line and not line.startswith("#")}
    found, waiting = {crate}, [crate]
    while waiting:
        new = [name for name in uses[waiting.pop()] if name in uses and name not in found]
        found.update(new)
        waiting += new
    return found - {"rules"}
