"""Steps of a test run: one after the other, and some beside the others. What a step leaves out it says in a line with `left out: `."""
import os
import re
import signal
import subprocess
import tempfile
import time

LEFT_OUT = re.compile(r"left out: (.*)")


class Steps:
    """Runs commands in a folder, shows what they print, and notes which failed and what they left out."""

    def __init__(self, top):
        self.top, self.failed, self.left, self.beside, self.begun = top, [], [], {}, time.time()

    def say(self, text):
        print(f"test: {text}", flush=True)

    def leave_out(self, text):
        self.left.append(text)
        self.say(f"left out: {text}")

    def show(self, line):
        print(line, end="", flush=True)
        if found := LEFT_OUT.search(line):
            self.left.append(found[1])

    def end(self, name, status):
        if status:
            self.failed.append(name)
            self.say(f"{name} failed, with status {status}")
        return not status

    def start(self, words, output, environment=None, folder=None):
        """Starts a command as the head of a group of processes, so that all of it can be ended."""
        how = {"cwd": folder or self.top, "stdin": subprocess.DEVNULL, "stdout": output, "stderr": subprocess.STDOUT, "start_new_session": True}
        return subprocess.Popen(words, env={**os.environ, **(environment or {})}, **how)

    def run(self, *words, environment=None):
        """Runs a command, and returns whether its status was 0."""
        name = " ".join(os.path.relpath(it, self.top) if os.path.isabs(it) else it for it in words)
        process = self.start(words, subprocess.PIPE, environment)
        try:
            for line in process.stdout:
                self.show(line.decode(errors="replace"))
        except BaseException:
            # This is told to end, and so is the command.
            self.stop(process)
            raise
        process.stdout.close()
        return self.end(name, process.wait())

    def run_until(self, end, words, folder):
        """Runs a command in a folder until a time at most, and shows its last line, or more where it fails. Returns whether its status was 0;
        None where it was not done by then."""
        with tempfile.TemporaryFile() as told:
            process = self.start(words, told, folder=folder)
            self.beside[words[0]] = process, None
            try:
                process.wait(max(1, end - time.time()))
            except subprocess.TimeoutExpired:
                return None
            finally:
                self.stop(process)
                del self.beside[words[0]]
                told.seek(0)
                lines = told.read().decode(errors="replace").splitlines()
                print(*lines[-40 if process.returncode else -1 :], sep="\n", flush=True)
        return process.returncode == 0

    def begin(self, *words):
        """Begins a command beside what follows."""
        told = tempfile.TemporaryFile()
        self.beside[words[0]] = self.start(words, told), told

    def wait(self, name):
        """Waits for a command that was begun, shows what it printed, and returns whether its status was 0."""
        process, told = self.beside[name]
        process.wait()
        del self.beside[name]
        with told:
            told.seek(0)
            for line in told:
                self.show(line.decode(errors="replace"))
        return self.end(name, process.returncode)

    def stop(self, process):
        """Ends a command and what it has started."""
        if process.poll() is None:
            os.killpg(process.pid, signal.SIGTERM)
            process.wait()

    def stop_all(self):
        for process, _ in self.beside.values():
            self.stop(process)

    def tell(self):
        """Says what was left out and what failed, and returns the exit status."""
        for text in self.left:
            self.say(f"was left out: {text}")
        minutes = (time.time() - self.begun) / 60
        self.say(f"{len(self.left)} left out; " + (f"FAILED: {', '.join(self.failed)}" if self.failed else "all else passed") + f", in {minutes:.0f} minutes")
        return 1 if self.failed else 0
