"""Runs of the program over a saved state: a folder with the file `hggit.state`."""
import os
import subprocess
from typing import NamedTuple, Optional

from program import SECONDS, STATE

NEW_STATE = f'{STATE}.new'


class Answer(NamedTuple):
    status: int
    output: bytes
    errors: bytes


class Saved:
    """A folder, and the program that runs in it."""

    def __init__(self, program, folder):
        self.program = program
        self.folder = folder

    def run(self, word, data=b''):
        run = subprocess.run([self.program, word], input=data, capture_output=True, cwd=self.folder, timeout=SECONDS)
        return Answer(run.returncode, run.stdout, run.stderr)

    def start(self, word, data_path):
        """A run over a file that isn't waited for; its output is dropped."""
        with open(data_path, 'rb') as data:
            return subprocess.Popen([self.program, word], stdin=data, stdout=subprocess.DEVNULL, stderr=subprocess.DEVNULL, cwd=self.folder)

    def output_of(self, word, data=b''):
        """What a run writes; it must be done."""
        answer = self.run(word, data)
        if answer.status or answer.errors:
            raise RuntimeError(f'{word} ended with {answer.status}: {answer.errors!r}')
        return answer.output

    @property
    def text(self) -> Optional[bytes]:
        """The text of the saved state; none where there is no file."""
        path = os.path.join(self.folder, STATE)
        if not os.path.exists(path):
            return None
        with open(path, 'rb') as file:
            return file.read()

    @text.setter
    def text(self, text):
        with open(os.path.join(self.folder, STATE), 'wb') as file:
            file.write(text)


def sections(text):
    """The sections 1 to 5 of a state's text by their names, each without its first line."""
    found, at = {}, text.index(b'\n') + 1
    while at < len(text):
        end = text.index(b'\n', at)
        word, number = text[at:end].split(b' ')
        if word == b'map':
            size = 82 * int(number)
            found[word] = text[end + 1:end + 1 + size]
            at = end + 1 + size
        else:
            found[word] = text[end + 1:end + 1 + int(number)]
            at = end + 2 + int(number)
    return found
