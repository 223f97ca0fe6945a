"""Makes sqlkeep.html: the page with the engine, its scripts and the examples in one file, which asks for nothing else.

    bundle.py FOLDER     of FOLDER/sqlkeep.wasm, into FOLDER/sqlkeep.html; and FOLDER/sqlkeep-element.mjs, for blocks in other pages
"""
import base64
import gzip
import json
import re
import sys
from pathlib import Path

sys.path.insert(0, str(Path(__file__).resolve().parent))
import documents

HERE = Path(__file__).resolve().parent
IMPORT = re.compile(r'^import \{([^}]*)\} from "(\.[^"]+)";\n', re.M)
EXPORT = re.compile(r"^export ((?:async )?(?:class|const|function\*?) (\w+))", re.M)
# What only readers of the sources need.
COMMENT = re.compile(r"^[ \t]*(//[^\n]*|/\*\*.*?\*/)\n", re.M | re.S)
PROVED = "The engine is compiled to WebAssembly from the proved library."
UNPROVED = "The engine is compiled to WebAssembly from the sources, without proof."


def in_order(file, done):
    """The modules that a module needs, each before those that need it, and then itself."""
    if file not in done:
        for _, other in IMPORT.findall(file.read_text("utf-8")):
            in_order((file.parent / other).resolve(), done)
        done.append(file)
    return done


def as_function(file, files):
    """A module as a call that gives what it exports: a script in a page that is opened from a file has no import and no export."""
    text = file.read_text("utf-8")
    exported = [name for _, name in EXPORT.findall(text)]
    text = IMPORT.sub(lambda found: f"const {{{found[1]}}} = module_{files.index((file.parent / found[2]).resolve())};\n", text)
    text = COMMENT.sub("", EXPORT.sub(r"\1", text))
    if re.search(r"</script|<!--|^import\b|^export\b", text, re.M | re.I):
        raise SystemExit(f"{file.name} has words that end a script, or an import or export that isn't known")
    return f"const module_{files.index(file)} = (() => {{\n{text}return {{ {', '.join(exported)} }};\n}})();\n"


def one_script(file):
    """A module with all that it needs, as one script."""
    files = in_order(file, [])
    return '"use strict";\n(() => {\n' + "".join(as_function(each, files) for each in files) + "})();\n"


def page(wasm, is_proved):
    """The text of the page."""
    parts = {
        "STYLE": (HERE / "style.css").read_text("utf-8"),
        "ORIGIN": PROVED if is_proved else UNPROVED,
        "DOCS": "../docs" if is_proved else "../../docs",
        "ENGINE": base64.b64encode(gzip.compress(wasm, 9, mtime=0)).decode(),
        "EXAMPLES": json.dumps(documents.groups(), ensure_ascii=False).replace("</", "<\\/"),
        "WORKER": one_script(HERE / "parts" / "worker.mjs"),
        "APPLICATION": one_script(HERE / "parts" / "application.mjs"),
    }
    return re.sub(r"/\*([A-Z]+)\*/", lambda found: parts[found[1]], (HERE / "sqlkeep.html").read_text("utf-8"))


def blocks():
    """The text of sqlkeep-element.mjs, which makes blocks of SQL in any page."""
    parts = {"WORKER": one_script(HERE / "parts" / "worker.mjs"), "STYLE": (HERE / "style.css").read_text("utf-8") + (HERE / "block.css").read_text("utf-8")}
    return re.sub(r'"/\*([A-Z]+)\*/"', lambda found: json.dumps(parts[found[1]], ensure_ascii=False), one_script(HERE / "sqlkeep-element.mjs"))


def write(folder, is_proved):
    """Writes sqlkeep.html and sqlkeep-element.mjs beside sqlkeep.wasm."""
    (folder / "sqlkeep-element.mjs").write_text(blocks(), "utf-8")
    (folder / "sqlkeep.html").write_text(page((folder / "sqlkeep.wasm").read_bytes(), is_proved), "utf-8")


if __name__ == "__main__":
    write(Path(sys.argv[1]), is_proved=Path(sys.argv[1]).resolve().name != "unproved")
