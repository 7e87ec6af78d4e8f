"""f2fsim and rusziveg, each call a process, for trials/play."""
import array
import fcntl
import json
import os
import resource
import subprocess
import termios
import time

USAGE = "usage: f2fsim run [--save PATH] | check IMAGE"
# How the programs name refusals: f2fsim by a number and a name, rusziveg by a text; a fault's number stands behind both.
REFUSALS = {
    "9 BadGeometry": "the geometry is bad",
    "10 NoPack": "no checkpoint pack is sound",
    "11 BadImage": "the image has fault",
    "14 NoVersion": "no version is left",
}
# No call takes so many seconds.
LIMIT = 120
# Where memory lacks, a process has so many bytes of addresses, and is given so many.
LITTLE, MUCH = 64 << 20, 256 << 20


def write_file(path, data):
    with open(path, "wb") as file:
        file.write(data)


def read_file(path):
    """Returns the bytes of a file, none where there is no file."""
    if not os.path.exists(path):
        return b""
    with open(path, "rb") as file:
        return file.read()


def lines_of(out, errors, status):
    """What a process told: its output, its errors behind a bar, and a status that is not 0."""
    lines = out.decode(errors="replace").splitlines() + [f"| {it}" for it in errors.decode(errors="replace").splitlines()]
    return lines + [f"status {status}"] * (status != 0)


def call(words, **how):
    """Runs a process, and returns what it told."""
    ran = subprocess.run(words, capture_output=True, check=False, timeout=LIMIT, **{"stdin": subprocess.DEVNULL, **how})
    return lines_of(ran.stdout, ran.stderr, ran.returncode)


def with_number(text):
    """A refusal's text with its number in front."""
    for name, start in REFUSALS.items():
        if text.startswith(start):
            return f"refused {name.split()[0]}: {text}"
    return f"refused: {text}"


class F2fsim:
    """The program that runs scripts and reads image files."""

    def __init__(self, program, folder):
        self.program = os.path.realpath(program)
        self.image, self.saved, self.folder = f"{folder}/image", f"{folder}/saved", f"{folder}/a folder"
        os.mkdir(self.folder)

    def run(self, text, rule):
        """Runs a script. Returns what it told, and the bytes of the image that it put aside, if it did."""
        if os.path.exists(self.saved):
            os.remove(self.saved)
        ran = subprocess.run([self.program, "run", "--save", self.saved, "--threading", rule], input=text, capture_output=True, check=False, timeout=LIMIT)
        return lines_of(ran.stdout, ran.stderr, ran.returncode), read_file(self.saved)

    def ask(self, word, image):
        """Asks of an image file, which must stay as it is."""
        write_file(self.image, image)
        told = call([self.program, word, self.image])
        return told + ["the image file was changed"] * (read_file(self.image) != image)

    def mount(self, image):
        """Mounts an image that is to be refused."""
        told = self.ask("files", image)
        for name, text in REFUSALS.items():
            if len(told) == 2 and told[0].startswith(f"refused {name}") and told[1] == "status 1":
                return [with_number(text + told[0][len(f"refused {name}") :])]
        return told

    def usage(self, words):
        """Tells `usage` where words are refused, with nothing on standard output, or the help is what is told."""
        told = call([self.program, *words])
        return ["usage"] if told == [f"| {USAGE}", "status 2"] or told[0] == USAGE and not told[-1].startswith("status") else told

    def ask_endless(self, word, image):
        """Asks of an image with zeros behind it that never end, through a pipe, and tells how many bytes were read of it."""
        read, write = os.pipe()
        os.set_blocking(write, False)
        with subprocess.Popen([self.program, word, "/dev/stdin"], stdin=read, stdout=subprocess.PIPE, stderr=subprocess.PIPE) as asked:
            given, end = 0, time.monotonic() + LIMIT
            while asked.poll() is None:
                try:
                    given += os.write(write, image[given : given + 4096] or bytes(4096))
                except BlockingIOError:
                    time.sleep(0.002)
                if time.monotonic() > end:
                    asked.kill()
            out, errors = asked.stdout.read(), asked.stderr.read()
        unread = array.array("i", [0])
        fcntl.ioctl(read, termios.FIONREAD, unread)
        os.close(read)
        os.close(write)
        return lines_of(out, errors, asked.returncode) + [f"read {given - unread[0]}"]

    def make_much(self):
        """Makes an image and a script for which LITTLE is too little, and returns their paths."""
        script = f"{self.folder}/script"
        # 64 segments of 2 MiB: the image has as many bytes, and a few more.
        write_file(script, b"format KERNEL 64 1 8 128\n")
        with open(script, "rb") as given:
            call([self.program, "run", "--save", self.image], stdin=given)
        os.truncate(script, MUCH)
        return self.image, script

    def ask_broken(self, kind):
        """Checks an image, and runs a script, that cannot be read, as a folder can't, or for which there is no memory."""
        image, script, limit = self.folder, self.folder, {}
        if kind == "memory":
            image, script = self.make_much()
            limit = {"preexec_fn": lambda: resource.setrlimit(resource.RLIMIT_AS, (LITTLE, LITTLE))}
        given = os.open(script, os.O_RDONLY)
        told = call([self.program, "check", image], **limit) + call([self.program, "run"], stdin=given, **limit)
        os.close(given)
        return told


class Tool:
    """The tool over image files."""

    def __init__(self, program, folder):
        self.program, self.image, self.new = os.path.realpath(program), f"{folder}/tool.img", f"{folder}/new.img"

    def obey(self, word, image, *more):
        """Does a word on an image. Returns what it told: of a refusal, its number and its text."""
        write_file(self.image, image)
        ran = subprocess.run([self.program, word, self.image, *more], stdin=subprocess.DEVNULL, capture_output=True, check=False, timeout=LIMIT)
        mark, text = f"rusziveg: {self.image}: ", ran.stderr.decode(errors="replace")
        if ran.returncode == 1 and text.startswith(mark) and not ran.stdout:
            return [with_number(text[len(mark) :].partition(";")[0])]
        return lines_of(ran.stdout, ran.stderr, ran.returncode)

    def differing(self, image, told):
        """Asks whether an image is sound, and returns what was told of it if f2fsim's `check` told another thing."""
        write_file(self.image, image)
        ran = subprocess.run([self.program, "check", self.image, "--json"], stdin=subprocess.DEVNULL, capture_output=True, check=False, timeout=LIMIT)
        found = json.loads(ran.stdout or "{}")
        if found.get("sound"):
            line = "version {version} total {valid_blocks} free {free_segments}".format(**found)
        else:
            line = f"refused {found.get('refusal')} {told[0].split()[2]}" + f" {found.get('fault')}" * (found.get("fault") is not None)
        return [] if line == told[0] else ["the tool:", *lines_of(ran.stdout, ran.stderr, ran.returncode)]

    def mount(self, image):
        """Mounts an image that is to be refused, to clean it: the file must stay as it is."""
        told = self.obey("clean", image)
        return told + ["the image was changed"] * (read_file(self.image) != image)

    def upgrade(self, image):
        """Writes an image anew in format 3. Returns what it told, and the new image; the old one must stay as it is."""
        if os.path.exists(self.new):
            os.remove(self.new)
        told = self.obey("upgrade", image, self.new)
        told = [] if len(told) == 1 and told[0].startswith(f"made {self.new}: ") else told
        return told + ["the image was changed"] * (read_file(self.image) != image), read_file(self.new)
