"""The folder of a finding, and the file that says which run has begun."""

import os

from .. import picture


class Unwritten(OSError):
    """Files couldn't be written. What was hunted is here all the same, as `hunted`."""

    def __init__(self, lost, of, error):
        why = error.strerror or error
        super().__init__(f"{', '.join(lost)} of {of} couldn't be written: {why}")
        self.lost = lost
        self.errno = error.errno
        self.hunted = None


def _write(path, text):
    with open(path, "w", encoding="utf-8") as file:
        file.write(text)


def write(finding, folder):
    """Writes each of the files, whatever became of the others."""
    finding.folder = folder
    trial, small = finding.trial, finding.small
    small_book = finding.small_book or small.book
    files = [
        ("finding.txt", str(finding)),
        ("settings.txt", f"{finding.settings!r}\n"),
        ("script.txt", str(trial.script)),
        ("steps.txt", trial.steps_text()),
        ("book.txt", trial.book),
        ("small-script.txt", str(small.script)),
        ("small-steps.txt", small.steps_text()),
        ("small-book.txt", small_book),
        ("explanation.txt", finding.explanation),
        ("picture.svg", finding.small_book and picture(finding.small_book)),
    ]
    lost, first = [], None
    for name, text in files:
        if text is None:
            continue
        try:
            os.makedirs(folder, exist_ok=True)
            _write(os.path.join(folder, name), text)
        except OSError as error:
            lost.append(name)
            first = first or error
    if lost:
        raise Unwritten(lost, f"the finding in {folder}", first)


class Begun:
    """A file that has the run that has begun, in case that the process ends in it."""

    def __init__(self, hunter):
        self._line = hunter.line
        self._settings = settings = hunter.settings
        self._path = None
        if settings.folder is not None:
            name = f"{settings.kind}-{settings.seed}-begun.txt"
            self._path = os.path.join(settings.folder, name)

    def begins(self, run, script):
        if self._path is None:
            return
        text = f"run {run} has begun, and hasn't ended:\n    {self._line(run)}\n\n{script}"
        try:
            os.makedirs(self._settings.folder, exist_ok=True)
            _write(self._path, text)
        except OSError as error:
            raise Unwritten([os.path.basename(self._path)], f"run {run}", error) from None

    def ends(self):
        if self._path is not None and os.path.exists(self._path):
            os.remove(self._path)
