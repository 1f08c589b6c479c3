"""What `vuyhanip verify` and openssl say of files, the command in this process and openssl in one of its own."""
import contextlib
import functools
import importlib
import io
import json
import os
from typing import NamedTuple, Tuple
from unittest import mock

from . import built, signing, tools


class Verdict(NamedTuple):
    """What the command says of a file: its exit status, and its findings."""

    status: int
    findings: Tuple[dict, ...]

    @property
    def is_right(self):
        """Whether anything that a script reads says that the file is right."""
        return self.status in (0, 4) or all(it["right"] for it in self.findings)

    @property
    def rules(self):
        return {it["rule"] for it in self.findings if not it["right"]} - {None}

    @property
    def notes(self):
        return "; ".join(note for it in self.findings for note in it["notes"])

    @property
    def words(self):
        return "; ".join(f"{it['what']}: {it['said']}" for it in self.findings)


def verdict(name, words=(), environment=(), package="vuyhanip"):
    """What a package's command says of a file in the folder of the keys."""
    built.use_shared()
    printed, complaints = io.StringIO(), io.StringIO()
    main = importlib.import_module(f"{package}.command").main
    before = os.getcwd()
    os.chdir(signing.room())
    try:
        with mock.patch.dict(os.environ, environment), contextlib.redirect_stdout(printed):
            with contextlib.redirect_stderr(complaints):
                status = main(["verify", "--json", *words, name])
    finally:
        os.chdir(before)
    lines = printed.getvalue().splitlines()
    if len(lines) != 1 or complaints.getvalue():
        raise AssertionError(f"{name}: status {status}, {lines}, {complaints.getvalue()}")
    return Verdict(status, tuple(json.loads(lines[0])["findings"]))


@functools.lru_cache(maxsize=None)
def accepts(*questions):
    """Whether openssl accepts a file, which each of some questions asks for."""
    return all(tools.ended("openssl", *words, cwd=signing.room()).returncode == 0 for words in questions)
