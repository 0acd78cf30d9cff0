"""Writes a program crate for each shared value from the templates beside this file: kinds.py WORK, a copy of the repository."""
import sys
from pathlib import Path

HERE = Path(__file__).resolve().parent
WORK = Path(sys.argv[1])
CRATES = WORK / "crates.txt"

LINES = CRATES.read_text()


def under(crate):
    """What the crate stands on, by its line."""
    return next(l for l in LINES.splitlines() if l.startswith(crate + ":")).split(":")[1] + " " + crate


def made(lock, crate_pass, body):
    return f"""fn made(alloc: Global, source: Arc<Source>) -> Result<({lock}, Vec<{crate_pass}>), AllocError>
    ensures {{ IfOk result (λ r. r.1.items ≡ map (fresh r.0 0) (range_with_len 0 4)) }}
{{
{body}
}}"""


KINDS = {
    "turns_desk": {
        "CRATE": "desk",
        "LOCK": "SharedDesk",
        "PASS": "DeskPass",
        "TURN": "shared.stop(rt, &mut pass);",
        "USES": "use dev_core::Subject;\nuse edit_steps::{Draft, Settings};\nuse history::History;",
        "MAKE": "    let draft = Draft::start(alloc, Settings::start(), History::start(alloc)?)?;\n"
        "    let subject = Arc::new(alloc, Subject::of(source, draft.finish())).map_err(AllocError::from)?;\n"
        "    SharedDesk::new(alloc, subject, 4)",
    },
    "turns_stage": {
        "CRATE": "shared_stage",
        "LOCK": "SharedStage",
        "PASS": "StagePass",
        "TURN": "let _ = shared.find(rt, alloc, &mut pass, &[]);",
        "USES": "use stage_cache::StageCache;",
        "MAKE": "    SharedStage::new(alloc, StageCache::new(alloc, source, 8, 1000)?, 4)",
    },
    "turns_mips": {
        "CRATE": "shared_mips",
        "LOCK": "MipCache",
        "PASS": "MipPass",
        "TURN": "let _ = shared.evict_one(rt, &mut pass);",
        "USES": "",
        "MAKE": "    MipCache::new(alloc, source, 2, 4)",
    },
}

TURNS = {"turns.rt.txt": "src/main.rt", "take_turns.Invariants.antt.txt": "proofs/take_turns/Invariants.antt"}


def write(name, kind, templates):
    """The crate of these templates, and its line in crates.txt."""
    values = kind | {"NAME": name, "MAKE": made(kind["LOCK"], kind["PASS"], kind["MAKE"])}
    for template, place in templates.items():
        text = (HERE / template).read_text()
        for key, value in values.items():
            text = text.replace(f"@{key}@", value)
        file = WORK / "crates" / name / place
        file.parent.mkdir(parents=True, exist_ok=True)
        file.write_text(text)
    (WORK / "crates" / name / "specs").mkdir(exist_ok=True)
    (WORK / "crates" / name / "stdin").touch()
    below = under(kind["CRATE"])
    return f"{name}:{below}{' pnm' if 'pnm' not in below.split() else ''}"


lines = [write(name, kind, TURNS) for name, kind in KINDS.items()]
lines.append(write("waiting", KINDS["turns_desk"], {"waiting.rt.txt": "src/main.rt"}))
CRATES.write_text(LINES.rstrip("\n") + "\n" + "\n".join(lines) + "\n")
