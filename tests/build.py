"""What the tests share: the paths of what is built, and a run of a program."""
import re
import resource
import shutil
import subprocess
import tempfile
import unittest
from pathlib import Path

ROOT = Path(__file__).resolve().parent.parent
DATA = ROOT / "crates/sixel_tests/data"
HEADERS = ROOT / "crates/icysixel/include"
MEMORY = ROOT / "crates/icysixel/memory/icysixel_memory.c"
# The library for C, as LLVM and as Rattle's own compiler build it.
ARCHIVES = [ROOT / f"crates/icysixel/out/libicysixel{it}.a" for it in ("", ".by-rattle")]


def builds_of(program):
    """The builds of a program, by LLVM and, where it exists, by Rattle's own compiler."""
    built = ROOT / f"crates/{program}/out/{program}"
    return [built, *(it for it in [built.with_name(f"{program}.by-rattle")] if it.exists())]


def run(*command, stdin=b"", memory=None, **options):
    """Runs a command on bytes or an open file; returns its status, standard output and error.

    `memory` limits the address space, in kilobytes.
    """
    options["input" if isinstance(stdin, bytes) else "stdin"] = stdin
    if memory:
        limits = (memory * 1024, memory * 1024)
        options["preexec_fn"] = lambda: resource.setrlimit(resource.RLIMIT_AS, limits)
    options = {"stdout": subprocess.PIPE, "stderr": subprocess.PIPE, "timeout": 60, **options}
    ended = subprocess.run(command, check=False, **options)
    return ended.returncode, ended.stdout, ended.stderr


def instructions(*command, stdin=b""):
    """The instructions of a command that succeeds, by valgrind."""
    valgrind = ["valgrind", "--tool=callgrind", "--callgrind-out-file=/dev/null"]
    status, _, told = run(*valgrind, *command, stdin=stdin, timeout=600)
    assert status == 0, told
    return int(re.search(rb"Collected : (\d+)", told)[1])


class ProgramTest(unittest.TestCase):
    """Tests of the program of this name, by each of its builds."""

    name = ""

    def builds(self):
        return builds_of(self.name)

    def ends(self, arguments, stdin, expected, **options):
        """Tests the status, output and error, on a pipe and on a file."""
        for program in self.builds():
            with tempfile.TemporaryFile() as file:
                file.write(stdin)
                for source in (stdin, file):
                    with self.subTest(program=program.name, arguments=arguments, stdin=stdin[:80]):
                        file.seek(0)
                        ended = run(program, *arguments, stdin=source, **options)
                        told = f"{ended[0]} {ended[1][:200]} {ended[2]}"
                        self.assertTrue(ended == expected, told)

    def fails(self, words, stdin, error):
        """Tests the error for arguments and redirections of the shell."""
        for program in self.builds():
            with self.subTest(program=program.name, words=words):
                ended = run("sh", "-c", f'exec "$0" {words}', program, stdin=stdin)
                self.assertEqual(ended, (1, b"", error.encode() + b"\n"))


def needs(*tools):
    """Skips a test where one of these tools is not installed."""
    missing = [it for it in tools if not shutil.which(it)]
    return unittest.skipIf(missing, f"not installed: {', '.join(missing)}")
