"""Answers, kept in target/audit/together with a digest of what they rest on: asked again only where that has changed."""
import functools
import hashlib
import json
import pathlib

from pairing.scratch import FOLDER, needed


def digest(pair, question):
    """What the answer to a question rests on: the pair, and the sources that it is asked over."""
    return hashlib.sha256(pair.text.encode() + _sources(_looked_at(pair, question))).hexdigest()


def _looked_at(pair, question):
    """The crates that a question is asked over, and what counts of a crate; with the list, the code of every crate and the list itself."""
    if question == "of_list":
        return ("*/src", "replay/stdin", "replay/stdout")
    if question == "of_laws":
        return ("rules/*", "runs/*", "history/*")
    stands = {one for crate in pair.crates() for one in needed(crate)} if question == "of_code" else set()
    return tuple(f"{crate}/*" for crate in sorted({"rules", *stands}))


@functools.cache
def _sources(patterns):
    told = hashlib.sha256()
    for top in sorted(path for pattern in patterns for path in pathlib.Path("crates").glob(pattern) if path.name != "out"):
        for path in [top] if top.is_file() else sorted(top.rglob("*")):
            if path.is_file() and "must-fail" not in path.parts:
                told.update(str(path).encode() + b"\0" + path.read_bytes() + b"\0")
    return told.digest()


def _all(pair):
    kept = FOLDER / f"{pair.name}.json"
    return json.loads(kept.read_text(encoding="utf-8")) if kept.exists() else {}


def kept(pair, question):
    """The answers to a question as they were kept, with the seconds that it took; None: it is to be asked."""
    record = _all(pair).get(question, {})
    if record.get("rests") != digest(pair, question):
        return None
    return dict(record["said"], seconds=record["seconds"])


def keep(pair, question, said, seconds):
    record = _all(pair)
    record[question] = {"rests": digest(pair, question), "said": said, "seconds": round(seconds)}
    FOLDER.mkdir(parents=True, exist_ok=True)
    text = json.dumps(record, indent=1, ensure_ascii=False)
    (FOLDER / f"{pair.name}.json").write_text(text, encoding="utf-8")
