#!/usr/bin/env python3
"""Gives the definitions and lemmas of this repository the names that they have today.

Run once, at the top of a checkout that the kit's script has brought over and that is committed:

    python3 tools/respell.py

A name is changed in the module that declares it and where it is imported from that module, in
specifications, proofs, clauses and ghost items. Functions of src/, strings, comments, inputs and
outputs keep theirs. (Paths and module lines of what moved are changed wherever they stand.) Names
with a hyphen or a capital inside get an underscore. A name that is there no longer is passed over,
so that a second run changes nothing. Two names of one module that would fall together stop the
script before it changes a name.
"""

import pathlib
import re
import sys

CRATES = pathlib.Path("crates")

# Files that moved: the shared refusals are a crate of their own, and three modules have other names.
MOVED = [
    ("stamps/specs/Refusals.antt", "refusals/specs/Refusals.antt"),
    ("stamps/specs/Lib.antt", "refusals/specs/Lib.antt"),
    ("stamps/src/lib.rt", "refusals/src/lib.rt"),
    ("stamps/src/refusal.rt", "refusals/src/refusal.rt"),
    ("stamps/must-fail/number_of_another.edit", "refusals/must-fail/number_of_another.edit"),
    ("listing/specs/Added.antt", "listing/specs/Adding.antt"),
    ("listing/proofs/Going.antt", "listing/proofs/Progress.antt"),
    ("vectors/src/tests.rt", "vectors/src/traces.rt"),
]

# What is written otherwise because of these moves.
PATHS = [
    (r"\bRattle\.stamps\.specs\.(Refusals|declared\.refusal)\b", r"Rattle.refusals.specs.\1"),
    (r"\bstamps::refusal\b", "refusals::refusal"),
    (r"\blisting\.specs\.Added\b", "listing.specs.Adding"),
    (r"\blisting\.proofs\.Going\b", "listing.proofs.Progress"),
    (r"^pub mod Added$", "pub mod Adding"),
    (r"^pub mod Going$", "pub mod Progress"),
    (r"^mod tests;$", "mod traces;"),
]

# Names that are others today, by the module that declares them.
RENAMED = {
    "trace.specs.Numbers": {
        "unsigned": "unsigned_at",
        "signed": "signed_at",
        "byte": "byte_at",
        "signedBytes": "signed_bytes_of",
    },
    "trace.specs.Kinds": {"bodyLen": "body_len_of"},
    "trace.specs.Contents": {
        "set-up": "set_up",
        "put-point": "put_point",
        "put-tag": "put_tag",
        "read-point": "read_point",
        "read-tag": "read_tag",
        "contentOf": "content_of",
        "encode": "encoding_of",
    },
    "trace.specs.Ranges": {"InRange": "IsInRange"},
    "trace.specs.Format": {
        "decode": "content_from",
        "Found": "Finding",
        "bodied": "finding_for",
        "parse": "finding_at",
        "behind": "place_behind",
        "keyIn": "key_span_of",
        "keyPart": "key_in_trace",
        "keyWithin": "key_in_body",
    },
    "trace.specs.Whole": {
        "then": "whole_with",
        "wholeFrom": "whole_from",
        "whole": "whole_of",
        "encodeAll": "trace_of",
        "OneWay": "SplitsOneWay",
    },
    "trace.specs.Writing": {
        "over": "overlay",
        "room": "is_within",
        "writtenTo": "write_answer",
        "written": "buffer_after_write",
        "reread": "read_back_answer",
        "copiedTo": "copy_answer",
        "copied": "buffer_after_copy",
    },
    "trace.proofs.Numbers": {"Bytes": "AllBytes"},
    "trace.proofs.Over": {"over-over": "overlay_overlay"},
    "trace.proofs.OneWay": {"Read": "ReadsFrom", "prepend": "whole_behind"},
    "listing.specs.Adding": {"Added": "Adds"},
    "listing.specs.Lines": {
        "wordText": "word_text",
        "pieceText": "piece_text",
        "spaced": "spaced_text",
        "lineText": "line_text",
    },
    "listing.specs.Text": {
        "recordLine": "record_line",
        "recordLines": "record_lines",
        "badLine": "bad_line",
        "endingLines": "ending_lines",
        "bodyText": "body_text",
        "endLine": "end_line",
    },
    "listing.proofs.Progress": {"Going": "HasListed"},
}

# A parameter of definitions, in whatever module it stands.
PARAMETERS = {"keyKind": "key_kind"}

WORD = r"[A-Za-z_][A-Za-z0-9_'-]*"
DECLARED = re.compile(
    rf"^ *(?:pub |abbrev |unfoldable )*(?:(?:record|data|ruleset) )?({WORD})(?: [({{].*)? [:=]", re.M
)


def word(name):
    """The name where it stands alone."""
    return re.compile(rf"(?<![A-Za-z0-9_'.◌-]){re.escape(name)}(?![A-Za-z0-9_'-])")


def place_of(module):
    crate, *rest = module.split(".")
    return CRATES / crate / pathlib.Path(*rest).with_suffix(".antt")


def modules():
    """Each module of specifications and of lemmas, with its file."""
    for crate in sorted(CRATES.iterdir()):
        for part in ("specs", "proofs"):
            for file in sorted((crate / part).glob("*.antt")):
                if file.stem != "Lib":
                    yield f"{crate.name}.{part}.{file.stem}", file


def snake(name):
    """A lemma's or a definition's name in snake case; a name of a type stays."""
    if name[0].isupper() and "-" not in name:
        return name
    parts = re.sub(r"([a-z0-9])([A-Z])", r"\1_\2", name.replace("-", "_"))
    return parts[0].lower() + parts[1:].lower()


def renamings(module, file):
    """What is renamed of that which this module declares."""
    text = file.read_text()
    declared = [n for n in DECLARED.findall(text) if not n.startswith("use")]
    own = RENAMED.get(module, {})
    names = {n: own.get(n, snake(n)) for n in declared}
    names.update({old: new for old, new in own.items() if word(old).search(code_of(text))})
    kept = [new for new in names.values()]
    if len(set(kept)) < len(set(names)):
        sys.exit(f"{module}: two names fall together: {sorted(names.items())}")
    return {old: new for old, new in names.items() if old != new}


def code_of(text):
    return re.sub(r"--.*", "", text)


def in_antt(text, change):
    """Changes a specification or proof, but for its comments and strings."""
    parts = re.split(r"(--[^\n]*|\"[^\"\n]*\")", text)
    return "".join(p if i % 2 else change(p) for i, p in enumerate(parts))


def in_rt(text, change):
    """Changes the ghost items and the clauses of a source, and what its tactics cite."""
    ghost = r"(?:^ *ghost [^\n]*$|^ *#\[tactic[^\n]*$)"
    clause = r"(?:\b(?:requires|ensures)[a-z_ ]*\{(?:[^{}]|\{[^{}]*\})*\})"
    return re.sub(rf"{ghost}|{clause}", lambda m: change(m[0]), text, flags=re.M)


def imports(text, module):
    """The names that this text takes from a module, by `use` or by a path in a tactic."""
    names = set()
    for taken in re.findall(rf"\bRattle\.{re.escape(module)}\.\{{([^}}]*)\}}", text):
        names.update(n.strip() for n in taken.split(","))
    crate, *rest = module.split(".")
    names.update(re.findall(rf"\bcrate::{'::'.join(rest)}::({WORD})", text))
    return names


def move():
    """Moves what is still at its old place, and lists the crate `refusals` where `stamps` was it."""
    for old, new in MOVED:
        if (CRATES / old).exists() and not (CRATES / new).exists():
            (CRATES / new).parent.mkdir(parents=True, exist_ok=True)
            (CRATES / old).rename(CRATES / new)
            for folder in (CRATES / old).parents:
                if any(folder.iterdir()):
                    break
                folder.rmdir()
    listed = pathlib.Path("crates.txt")
    if not (CRATES / "stamps/src/lib.rt").exists():
        listed.write_text(re.sub(r"\bstamps\b", "refusals", listed.read_text()))


def main():
    if not CRATES.is_dir():
        sys.exit("run this at the top of the repository")
    move()
    files = [f for f in CRATES.glob("*/**/*") if f.suffix in (".antt", ".rt") and "out" not in f.parts]
    for file in files:
        text = file.read_text()
        new = text
        for old, path in PATHS:
            new = re.sub(old, path, new, flags=re.M)
        if new != text:
            file.write_text(new)
    table = {module: (file, renamings(module, file)) for module, file in modules()}
    for file in files:
        text = file.read_text()
        chosen = dict(PARAMETERS)
        for module, (home, names) in table.items():
            taken = set(names) if file == home else imports(text, module)
            chosen.update({old: new for old, new in names.items() if old in taken})

        def change(part):
            for old, name in chosen.items():
                part = word(old).sub(f"\0{name}", part)
            return part.replace("\0", "")

        new = in_antt(text, change) if file.suffix == ".antt" else in_rt(text, change)
        if new != text:
            file.write_text(new)
            print(f"{file}: {', '.join(sorted(old for old in chosen if word(old).search(text)))}")


main()
