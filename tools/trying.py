"""What the tests of the tools share: runs of a tool without a process of its own, and files to run it on."""

import io
import json
import os
import subprocess
import sys
import tempfile
import unittest
from unittest import mock


def runner(tool):
    """A function of words: the status, the output and the note of a tool on them."""
    # One parser for all runs: it takes longer to make than most files to read.
    parser = tool.parser()

    def run(*words):
        out, err = io.BytesIO(), io.StringIO()
        with mock.patch.object(tool, "parser", lambda: parser):
            status = tool.main([str(word) for word in words], out, err)
        return status, out.getvalue(), err.getvalue()

    return run


class Case(unittest.TestCase):
    """A test with a folder of its own for files."""

    # What runs the tool that is tested, and its file.
    run_tool = tool = None

    def setUp(self):
        folder = tempfile.TemporaryDirectory()
        self.addCleanup(folder.cleanup)
        self.folder = folder.name

    def file(self, data, name="f"):
        """A file of these bytes, or of this value as JSON."""
        path = os.path.join(self.folder, name)
        with open(path, "wb") as file:
            file.write(data if isinstance(data, bytes) else json.dumps(data).encode())
        return path

    def made(self, *words):
        """What the tool writes on words, with status 0 and no note."""
        status, out, note = type(self).run_tool(*words)
        self.assertEqual((status, note), (0, ""))
        return out

    def ends(self, streams, *words):
        """The status, the output and the note of a process of the tool; a shell redirects its streams."""
        done = subprocess.run(["sh", "-c", f'"$@" {streams}', "sh", sys.executable, type(self).tool, *words],
                              stdout=subprocess.PIPE, stderr=subprocess.PIPE, check=False)
        return done.returncode, done.stdout, done.stderr.decode()

    def loses(self, *words):
        """What a process of the tool writes on words is lost, and it says so; where its note is lost the status stays."""
        for streams in (">/dev/full", ">&-"):
            self.assertEqual(self.ends(streams, *words), (4, b"", "cannot write\n"), streams)
        for streams in (">&- 2>&-", ">/dev/full 2>/dev/full"):
            self.assertEqual(self.ends(streams, *words), (4, b"", ""), streams)
        for streams in ("2>&-", "2>/dev/full"):
            self.assertEqual(self.ends(streams, "none"), (1, b"", ""), streams)
