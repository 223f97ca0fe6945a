#!/usr/bin/env python3
"""Types into the shell of the Python package on a pseudo-terminal, and compares the screen with the stored one.

    dialogues.py --python PYTHON [NAME..] [--tell]

PYTHON is one in which the package is installed. Each file here is a dialogue: the screen as it is at the end. What stands behind a
prompt is typed, a line of it with Enter; `^C` at its end is Ctrl-C, and a prompt with nothing behind it, at the end of the file, is
Ctrl-D. Lines with `#` at the top of a file set something up:

    # keys LINE      types this line in place of what stands behind the prompts, with <Tab>, <Up>, <Ctrl-A>, <Ctrl-C>, <Ctrl-D>, <Enter>;
                       <Wait> waits until the line is taken
    # env NAME=VALUE
    # args WORDS
    # file NAME TEXT
    # wants NAME TEXT    a file that is there at the end, with this text

With --tell the screen of each dialogue is printed. The last line is `N passed, N failed`.
"""
import argparse
import fcntl
import os
import pty
import re
import select
import shlex
import signal
import struct
import subprocess
import sys
import tempfile
import termios
import time
from pathlib import Path

HERE = Path(__file__).resolve().parent
PROMPTS = ("sqlkeep> ", "   ...> ")
KEYS = {"<Tab>": "\t", "<Up>": "\x1b[A", "<Ctrl-A>": "\x01", "<Ctrl-C>": "\x03", "<Ctrl-D>": "\x04", "<Enter>": "\n", "<Ctrl-U>": "\x15", "<Wait>": ""}
WIDTH, HEIGHT = 160, 200
PATIENCE = 20.0
ESCAPE = re.compile(r"\x1b\[([?>]?[\d;]*)([A-Za-z@])|\x1b[=>]|\x1b\][^\x07]*\x07")


class Screen:
    """A terminal as far as readline uses it. Colours are kept as `{31}`."""

    def __init__(self):
        self.lines, self.row, self.column = [[]], 0, 0

    def put(self, character):
        line = self.lines[self.row]
        line += [" "] * (self.column - len(line))
        line[self.column : self.column + 1] = [character]
        self.column += 1

    def control(self, character):
        if character == "\n":
            self.row += 1
            self.lines += [[]] * 0 if self.row < len(self.lines) else [[]]
        elif character == "\r":
            self.column = 0
        elif character == "\b":
            self.column = max(0, self.column - 1)

    def escape(self, numbers, letter):
        count, line = int(numbers) if numbers.isdigit() else 1, self.lines[self.row]
        if letter == "C":
            self.column += count
        elif letter == "D":
            self.column = max(0, self.column - count)
        elif letter == "K":
            del line[self.column :]
        elif letter == "P":
            del line[self.column : self.column + count]
        elif letter == "@":
            line[self.column : self.column] = [" "] * count
        elif letter == "m":
            self.put("{" + numbers + "}")

    def feed(self, text):
        at = 0
        while at < len(text):
            found = ESCAPE.match(text, at)
            if found:
                if found[2]:
                    self.escape(found[1], found[2])
                at = found.end()
                continue
            if text[at] < " ":
                self.control(text[at])
            else:
                self.put(text[at])
            at += 1

    def text(self):
        return "\n".join("".join(line).rstrip() for line in self.lines).rstrip()

    def is_at_prompt(self):
        line = "".join(self.lines[self.row])
        return self.row == len(self.lines) - 1 and line in PROMPTS


class Terminal:
    """The shell on a terminal."""

    def __init__(self, words, folder, env):
        self.master, slave = pty.openpty()
        fcntl.ioctl(slave, termios.TIOCSWINSZ, struct.pack("HHHH", HEIGHT, WIDTH, 0, 0))
        clean = {"HOME": folder, "PATH": os.environ["PATH"], "TERM": "xterm", "INPUTRC": os.path.join(folder, ".inputrc"), "LANG": "C.UTF-8", "NO_COLOR": "1", **env}
        Path(folder, ".inputrc").write_text("set enable-bracketed-paste off\nset bell-style none\n", "utf-8")
        self.process = subprocess.Popen(words, cwd=folder, stdin=slave, stdout=slave, stderr=slave, env=clean, preexec_fn=lambda: take_terminal(slave), start_new_session=True)
        os.close(slave)
        self.screen, self.rest = Screen(), b""

    def read(self, seconds):
        """Reads what comes within some time; whether something came."""
        ready, _, _ = select.select([self.master], [], [], seconds)
        if not ready:
            return False
        try:
            found = os.read(self.master, 65536)
        except OSError:
            found = b""
        whole = self.rest + found
        text = whole.decode("utf-8", "ignore")
        cut = len(whole) - len(text.encode())
        self.rest = whole[len(whole) - cut :] if 0 < cut < 4 else b""
        self.screen.feed(text)
        return bool(found)

    def wait(self, behind=-1):
        """Waits for a prompt in a line behind this one, or for the end."""
        until = time.monotonic() + PATIENCE
        while time.monotonic() < until and not (self.screen.is_at_prompt() and self.screen.row > behind):
            if not self.read(0.05) and self.process.poll() is not None:
                return

    def type(self, keys):
        """Types keys one after the other: after a special one what it does is awaited."""
        row = self.screen.row
        for part in re.split(r"(<[A-Z][A-Za-z-]*>)", keys):
            os.write(self.master, KEYS.get(part, part).encode())
            if part == "<Wait>":
                self.wait_for_line(row)
            # A terminal drops on Ctrl-C what wasn't read yet, so what was typed before it is awaited, too.
            while part not in ("", "<Enter>") and self.read(0.3 if part in KEYS else 0.1):
                pass

    def wait_for_line(self, row):
        """Waits until the line that was typed in this row is taken, and a moment more."""
        until = time.monotonic() + PATIENCE
        while time.monotonic() < until and self.screen.row == row:
            self.read(0.05)

    def close(self):
        try:
            self.process.wait(timeout=PATIENCE)
        except subprocess.TimeoutExpired:
            self.process.kill()
            self.process.wait()
        while self.read(0.05):
            pass
        os.close(self.master)


def take_terminal(slave):
    """The terminal is the child's, which has the usual Ctrl-C even if it is ignored here, as behind `&`."""
    fcntl.ioctl(slave, termios.TIOCSCTTY, 0)
    signal.signal(signal.SIGINT, signal.SIG_DFL)


def keys_of(screen):
    """What is typed behind the prompts of a screen."""
    lines = [(prompt, line[len(prompt) :]) for line in screen.split("\n") for prompt in PROMPTS if line.startswith(prompt) or line == prompt.rstrip()]
    for _, typed in lines[:-1]:
        yield typed[:-2] + "<Ctrl-C>" if typed.endswith("^C") else typed + "<Enter>"
    yield lines[-1][1] + "<Enter>" if lines[-1][1] else "<Ctrl-D>"


def parsed(text):
    """The settings of a dialogue, by their first word, and its screen."""
    head = re.match(r"(?:#[^\n]*\n)*", text)[0]
    settings = {"keys": [], "env": [], "args": [], "file": [], "wants": []}
    for kind, rest in re.findall(r"^# (keys|env|args|file|wants) (.*)$", head, re.M):
        settings[kind].append(rest)
    return settings, text[len(head) :].rstrip("\n")


def pairs(lines):
    return [(line.partition(" ")[0], line.partition(" ")[2].replace("\\n", "\n")) for line in lines]


def played(python, settings, wanted, folder):
    """Plays a dialogue; its screen."""
    for name, text in pairs(settings["file"]):
        Path(folder, name).write_text(text, "utf-8")
    env = dict(line.split("=", 1) for line in settings["env"])
    terminal = Terminal([python, "-m", "sqlkeep", *shlex.split(" ".join(settings["args"]))], folder, env)
    terminal.wait()
    for keys in settings["keys"] or keys_of(wanted):
        row = terminal.screen.row
        terminal.type(keys)
        terminal.wait(row)
    terminal.close()
    return terminal.screen.text()


def faults(python, path, tell=False):
    """What is wrong with a dialogue; nothing where its screen is the stored one."""
    settings, wanted = parsed(path.read_text("utf-8"))
    with tempfile.TemporaryDirectory(prefix="dialogue-") as folder:
        screen = played(python, settings, wanted, folder)
        wrong = [f"{name} isn't {text!r}" for name, text in pairs(settings["wants"]) if not Path(folder, name).exists() or Path(folder, name).read_text("utf-8") != text]
    if tell:
        print(f"---- {path.name}\n{screen}")
    if screen != "\n".join(line.rstrip() for line in wanted.split("\n")).rstrip():
        wrong.append(f"the screen is\n{screen}\n---- and not\n{wanted}")
    return wrong


def main():
    parser = argparse.ArgumentParser()
    parser.add_argument("--python", required=True)
    parser.add_argument("--tell", action="store_true")
    parser.add_argument("names", nargs="*")
    given = parser.parse_args()
    passed = failed = 0
    for path in sorted(HERE.glob("*.txt")):
        if given.names and path.stem not in given.names:
            continue
        wrong = faults(given.python, path, given.tell)
        passed, failed = passed + (not wrong), failed + bool(wrong)
        for each in wrong:
            print(f"FAILED {path.stem}: {each}")
    print(f"{passed} passed, {failed} failed")
    return int(failed > 0)


if __name__ == "__main__":
    sys.exit(main())
