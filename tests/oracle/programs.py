"""The built programs, run on files in a new folder."""
import os
import subprocess
import tempfile
from dataclasses import dataclass

SECONDS = 300


@dataclass
class Answer:
    status: int
    output: bytes
    # Files that weren't there before, or have other bytes now.
    saved: dict

    def plain(self):
        return self.status, self.output


class Programs:
    def __init__(self, novac, nova):
        self.novac, self.nova = novac, nova

    def run(self, program, files, words):
        with tempfile.TemporaryDirectory(prefix="oracle-") as folder:
            for name, data in files.items():
                with open(os.path.join(folder, name), "wb") as it:
                    it.write(data)
            ran = subprocess.run([program, *words], cwd=folder, stdin=subprocess.DEVNULL, capture_output=True, timeout=SECONDS)
            return Answer(ran.returncode, ran.stdout, {name: data for name, data in contents(folder).items() if files.get(name) != data})

    def call(self, files, *words):
        return self.run(self.novac, files, words)

    def form_text(self, source):
        """The single-use form of a source, which has no fault."""
        answer = self.run(self.nova, {"s.nova": source}, ("forms", "s.nova", "single"))
        if answer.status:
            raise OSError(f"nova forms ends with {answer.status}")
        return answer.output.decode()

    def sizes_text(self, source):
        """What is told of a source and its sizes."""
        return self.run(self.nova, {"s.nova": source}, ("check", "--verbose", "s.nova")).output.decode("utf-8", "replace")


def contents(folder):
    found = {}
    for name in os.listdir(folder):
        with open(os.path.join(folder, name), "rb") as it:
            found[name] = it.read()
    return found
