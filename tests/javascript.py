#!/usr/bin/env python3
"""Tries the engine in JavaScript: every script of tests/scripts and examples that has no other words than limits, with accounts where they are
there; the accounts of all of them, read into objects and written again; the calls of a session (javascript.mjs); and that a build that is
ended leaves nothing behind. The types are tried by the compiler of TypeScript.

  tests/javascript.py --library FOLDER

The folder has sqlkeep.wasm and sqlkeep.mjs, as `./build --page` leaves them in out/. It wants node. The last line is
`N passed, N failed, N skipped`."""
import argparse
import base64
import json
import os
import shlex
import shutil
import subprocess
import sys
import tempfile
import time
from pathlib import Path

import c_library
import run

HERE = os.path.dirname(os.path.abspath(__file__))
ROOT = Path(HERE).parent
# What the program says of a script that it doesn't run, by the status of the library.
STOPS = {4: b"sqlkeep: the script is not UTF-8\n", 5: b"sqlkeep: the script is longer than 1048576 bytes\n"}


def cases():
    """The scripts, each with its words and what is wanted: a transcript, or the line of a script that isn't run."""
    for folder in ("scripts", "../examples"):
        for name in sorted({file.split(".")[0] for file in run.files(folder)}):
            script, words = run.stored(folder, name + ".sql"), (run.read(folder, name + ".args") or b"").decode()
            if script is None or not c_library.LIMITS.fullmatch(words.strip() + (" " if words.strip() else "")):
                continue
            err, status = run.read(folder, name + ".err"), run.read(folder, name + ".status")
            if status == b"2\n" and err is None:
                continue
            given = shlex.split(words)
            options = {word[2:]: int(value) for word, value in zip(given[::2], given[1::2])}
            yield name, script, options, err if err else run.stored(folder, name + ".out")
            if run.read(folder, name + ".account") is not None:
                yield name + " explained", script, {**options, "explain": True}, run.read(folder, name + ".account")


def answers(folder, wanted):
    """What the engine answers to each, by name."""
    with tempfile.NamedTemporaryFile("w", suffix=".json", encoding="utf-8") as file:
        for name, script, options, _ in wanted:
            file.write(json.dumps({"name": name, "script": base64.b64encode(script).decode(), **options}) + "\n")
        file.flush()
        done = subprocess.run(["node", "--stack-size=4000", os.path.join(HERE, "page_scripts.mjs"), folder, file.name], capture_output=True, text=True, timeout=600, check=False)
    print(done.stderr, end="", file=sys.stderr)
    return {answer["name"]: answer for answer in map(json.loads, done.stdout.splitlines())}


def read_again(wanted, folder):
    """Why accounts that are read into objects and written again have other lines, by script; and how many accounts there were."""
    all_explained = [(name, script, {**options, "explain": True}, want) for name, script, options, want in wanted if not options.get("explain")]
    found = answers(folder, all_explained)
    return [f"{name}: {found.get(name, {}).get('unlike', found.get(name))}" for name, _, _, _ in all_explained if is_unlike(found.get(name))], sum(each.get("accounts", 0) for each in found.values()), len(all_explained)


def is_unlike(answer):
    return answer is None or answer.get("unlike") is not None or ("accounts" not in answer and answer.get("status") not in STOPS)


def untyped():
    """What the compiler of TypeScript says of a program that uses the library by its types."""
    with tempfile.TemporaryDirectory() as place:
        package = Path(place, "node_modules", "sqlkeep")
        package.mkdir(parents=True)
        for file in ("package.json", "sqlkeep.mjs", "sqlkeep.d.ts"):
            shutil.copy(ROOT / "page" / file, package)
        Path(place, "package.json").write_text('{"type": "module"}', "utf-8")
        shutil.copy(ROOT / "tests" / "javascript_types.ts", place)
        words = ["tsc", "--noEmit", "--strict", "--target", "es2022", "--module", "nodenext", "--moduleResolution", "nodenext", "javascript_types.ts"]
        return subprocess.run(words, cwd=place, capture_output=True, text=True, check=False).stdout


def ended_build():
    """What a build of the page leaves that gets SIGTERM, and what one leaves that was killed, when the next one has begun."""
    out, killed = ROOT / "out", ROOT / "out" / "sandboxes-of-a-killed-build"
    killed.mkdir(parents=True, exist_ok=True)
    (killed / "lock").touch()
    build = subprocess.Popen([sys.executable, ROOT / "tools" / "page.py", "--unproved"], stdout=subprocess.DEVNULL, stderr=subprocess.DEVNULL)
    try:
        until = time.monotonic() + 60
        while build.poll() is None and time.monotonic() < until and not list(out.glob("sandboxes-*/whole/kit")):
            time.sleep(0.05)
        begun = list(out.glob("sandboxes-*/whole/kit"))
        build.terminate()
        build.wait(60)
    finally:
        build.kill()
    left = [str(path) for path in [*out.glob("sandboxes-*/whole"), killed] if path.exists()]
    return left if begun else ["the build didn't begin"]


def said(answer):
    if answer is None:
        return b"no answer"
    return answer["transcript"].encode() if "transcript" in answer else STOPS.get(answer["status"], str(answer["status"]).encode())


def calls(folder):
    """How many calls of a session are as they should be, and what is said of the others."""
    done = subprocess.run(["node", os.path.join(HERE, "javascript.mjs"), folder], capture_output=True, text=True, timeout=300, check=False)
    lines = done.stdout.splitlines()
    return sum(line.startswith("ok ") for line in lines), [line.removeprefix("FAILED ") for line in lines if line.startswith("FAILED ")] + ([done.stderr[-1000:]] if done.returncode else [])


# What is tried beside, what it wants, and which package has that.
BESIDE = (("types", untyped, ["tsc"], "node-typescript"), ("a build that is ended", ended_build, ["rt", "wasm-opt"], "binaryen"))


def main():
    parser = argparse.ArgumentParser()
    parser.add_argument("--library", required=True)
    folder = os.path.abspath(parser.parse_args().library)
    if shutil.which("node") is None or not os.path.exists(os.path.join(folder, "sqlkeep.wasm")):
        print("the engine in JavaScript: skipped; apt-get install nodejs binaryen, then ./build --page\n0 passed, 0 failed, 1 skipped")
        return 0
    wanted, skipped = list(cases()), 0
    found = answers(folder, wanted)
    failed = [why[0][:300] for why in (run.compare(name, want, said(found.get(name))) for name, _, _, want in wanted) if why]
    unlike, accounts, scripts = read_again(wanted, folder)
    print(f"{accounts} accounts of {scripts} scripts read into objects and written again")
    called, miscalled = calls(folder)
    passed = len(wanted) - len(failed) + scripts - len(unlike) + called
    failed += [f"account of {why[:600]}" for why in unlike] + miscalled
    for name, test, tools, package in BESIDE:
        if not all(map(shutil.which, tools)):
            skipped += 1
            print(f"{name}: skipped; apt-get install {package}")
            continue
        why = test()
        passed, failed = passed + (not why), failed + ([f"{name}: {why}"] if why else [])
    print("".join(f"FAILED {why}\n" for why in failed) + f"{passed} passed, {len(failed)} failed, {skipped} skipped")
    return int(bool(failed))


if __name__ == "__main__":
    sys.exit(main())
