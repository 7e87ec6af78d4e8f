"""Plays the steps of trials/tests_tool on a program as a process of its own, and compares what each says with what the gate wants."""
import errno
import fcntl
import os
import shutil
import subprocess
import tempfile
from collections import Counter

from nobody import become_nobody, binds_permissions, give_away

TOP = os.path.dirname(os.path.dirname(os.path.realpath(__file__)))
RUNS = f"{TOP}/trials/tests_tool"
SIGNS = (("_", " "), ("''", ""), ("\\n", "\n"), ("\\u{9b}", "\u009b"), ("\\u{202e}", "\u202e"), ("\\u{200b}", "\u200b"))
# How streams fail behind so many bytes, the error and the texts by which the system and the library name it.
FAILURES = {
    "failing": ("RZ_INPUT", errno.ETIMEDOUT, "timed out"),
    "starved": ("RZ_INPUT", errno.ENOMEM, "out of memory"),
    "full": ("RZ_OUTPUT", errno.ENOSPC, "no storage space"),
    "unread": ("RZ_OUTPUT", errno.EPIPE, "broken pipe"),
}
FLAGS = ["-std=c11", "-Wall", "-Wextra", "-Werror", "-O1", "-shared", "-fPIC"]


def build_streams(folder):
    """Builds in a folder what has streams fail, and returns its path; None where there is no C compiler."""
    if not shutil.which("cc"):
        return None
    path = f"{folder}/streams.so"
    subprocess.run(["cc", *FLAGS, f"{TOP}/trials/streams.c", "-o", path, "-ldl"], stdin=subprocess.DEVNULL, check=True)
    return path


def preloading(library, environment=None):
    """The environment in which a library, too, comes between a program and the C library. LD_PRELOAD takes no path that has a blank."""
    before = environment or {}
    names = [it for it in (before.get("LD_PRELOAD"), os.path.basename(library)) if it]
    folders = [it for it in (before.get("LD_LIBRARY_PATH"), os.path.dirname(library)) if it]
    return {**before, "LD_PRELOAD": " ".join(names), "LD_LIBRARY_PATH": ":".join(folders)}


def words_of(line):
    """The words of a line, as tests_tool reads them."""
    words = []
    for word in line.split():
        for sign, meant in SIGNS:
            word = word.replace(sign, meant)
        words.append(word)
    return words


def blocks_of(steps, told):
    """What is wanted of each step: the lines below it, up to the next step. Behind the last stand crashes, which are not played here."""
    place, blocks = 0, []
    for number, step in enumerate(steps):
        if told[place] != step:
            raise AssertionError(f"tests_tool/stdout has no line for the step: {step}")
        place += 1
        begin, after = place, steps[number + 1] if number + 1 < len(steps) else None
        while place < len(told) and told[place] != after and not (after is None and told[place].startswith("with packs in ")):
            place += 1
        blocks.append(told[begin:place])
    return blocks


def lines_of(data):
    """What was told, as tests_tool prints it."""
    try:
        text = data.decode()
    except UnicodeDecodeError:
        text = "\0"
    return [f"({len(data)} bytes)"] if "\0" in text else text.split("\n")[: -1 if text.endswith("\n") else None] if text else []


def in_library_words(lines):
    """Lines in which an error of the system is named as the library names its kind."""
    for _, number, text in FAILURES.values():
        lines = [it.replace(f"{os.strerror(number)} (os error {number})", text) for it in lines]
    return lines


class Play:
    """A folder with the files of tests_tool, and what the next words are given. `streams` has streams fail, and `tests` leaves a removal half
    done: what needs one that is None is left out."""

    def __init__(self, program, folder, environment, streams=None, tests=None):
        self.program, self.folder, self.environment, self.streams, self.tests = program, folder, environment, streams, tests
        # What there is not, and must be for steps up to the next heading.
        self.input, self.failing, self.lack, self.locked = b"", {}, None, None
        # Whether a user whom permissions bind gets there.
        self.is_bound = binds_permissions(folder, os.path.dirname(program))

    def lacks(self):
        """What the next words lack, so that what they say can't be compared; None where nothing."""
        return self.lack or ("a C compiler" if self.failing and not self.streams else None)

    def can_obey(self):
        """Whether the next words do what they are to do to files."""
        return not self.lack and (self.streams or "RZ_INPUT" not in self.failing)

    def process(self, program, words, environment):
        drop = become_nobody if os.geteuid() == 0 and self.is_bound else None
        how = {"cwd": self.folder, "input": self.input, "capture_output": True, "timeout": 120, "preexec_fn": drop}
        # Its own name stands in its help.
        return subprocess.run(words, executable=program, check=False, env={**os.environ, **environment}, **how)

    def obey(self, words):
        environment = {**self.environment, **self.failing}
        if self.failing and self.streams:
            environment = preloading(self.streams, environment)
        done = self.process(self.program, ["rusziveg", *words[1:]], environment)
        told = lines_of(done.stdout) + [f"| {it}" for it in lines_of(done.stderr)]
        return in_library_words(told) + ([f"status {done.returncode}"] if done.returncode else [])

    def files(self, folder, count):
        os.makedirs(self.path(folder), exist_ok=True)
        for number in range(int(count)):
            with open(self.path(f"{folder}/a-file-with-quite-a-long-name-for-its-size-{number}"), "wb") as file:
                file.write(b"f" * 300)

    def path(self, name):
        return os.path.join(self.folder, name)

    def take(self, verb, word):
        """What the next words are given as input, and where their streams fail."""
        if verb in ("input", "many", "failing", "starved"):
            self.input = word.encode() if verb == "input" else b"m" * int(word)
            self.failing.pop("RZ_INPUT", None)
        if verb == "taken":
            self.failing.pop("RZ_OUTPUT", None)
        if verb in FAILURES:
            stream, number, _ = FAILURES[verb]
            self.failing[stream] = f"{word} {number}"

    def halve(self, image, name):
        """The program of the tests deletes the file of a name and leaves the name."""
        if not self.tests:
            self.lack = "the program of the tests"
        else:
            self.process(self.tests, ["tests", "halve", image, name], {}).check_returncode()

    def change_file(self, verb, first, other):
        if verb == "copy":
            shutil.copyfile(self.path(first), self.path(other))
        elif verb == "cut":
            os.truncate(self.path(first), int(other))
        elif verb == "spoil":
            with open(self.path(first), "r+b") as file:
                file.seek(int(other))
                file.write(b"\2")
        elif verb == "files":
            self.files(first, other)
        elif verb == "folder":
            os.mkdir(self.path(first))
        elif verb == "link":
            os.symlink(other, self.path(first))
        else:
            os.chmod(self.path(first), {"protect": 0o444, "hide": 0o333, "show": 0o755}[verb])
        self.give_away()

    def give_away(self):
        """Gives all files to the user as whom the program is run."""
        if os.geteuid() == 0 and self.is_bound:
            give_away(self.folder)

    def prepare(self, words):
        """Does what tests_tool does between words. A heading begins what can be played again."""
        verb, first, other = (words + ["", "", ""])[:3]
        if verb in ("input", "many", "taken", *FAILURES):
            self.take(verb, first)
        elif verb == "#":
            self.lack = None
        elif verb == "halve":
            self.halve(first, other)
        elif verb in ("protect", "hide", "show") and not self.is_bound:
            self.lack = "a user whom permissions bind"
        elif verb == "lock":
            self.locked = open(self.path(first), "rb")
            fcntl.flock(self.locked, fcntl.LOCK_EX)
        elif verb == "unlock":
            self.locked.close()
        else:
            self.change_file(verb, first, other)


def play(program, environment, streams=None, tests=None):
    """Returns how many of the tool's words were compared, how many were not for want of what, and what differed."""
    with open(f"{RUNS}/data/steps", encoding="utf-8") as file:
        steps = file.read().splitlines()
    with open(f"{RUNS}/stdout", encoding="utf-8") as file:
        blocks = blocks_of(steps, file.read().split("\n"))
    compared, left, wrong = 0, Counter(), []
    with tempfile.TemporaryDirectory() as folder:
        shutil.copytree(f"{RUNS}/data", folder, dirs_exist_ok=True)
        os.chmod(folder, 0o755)
        stage = Play(program, folder, environment, streams, tests)
        stage.give_away()
        for step, wanted in zip(steps, blocks):
            words = words_of(step)
            if words[0] != "rusziveg":
                stage.prepare(words)
                continue
            told = stage.obey(words) if stage.can_obey() else None
            if lack := stage.lacks():
                left[lack] += 1
                continue
            compared += 1
            if told != wanted:
                wrong.append((step, wanted, told))
    return compared, left, wrong
