"""Programs that are missing, fail, or write half of what they should; and programs that read and write much."""

import os
import unittest
from unittest import mock

import radwelio
from radwelio import Program

from .support import ProgramCase, example


class Finding(ProgramCase):
    def test_what_is_named_comes_before_the_variable_and_that_before_the_path(self) -> None:
        script = self.script("print('# A 0\\n-VIDE-.')", "qsys")
        with mock.patch.dict(os.environ, {"PATH": str(self.folder), "QSYS": "/nowhere/qsys"}):
            self.assertEqual(Program.find(script).words, (script,))
            with self.assertRaisesRegex(radwelio.ProgramMissing, "/nowhere/qsys is no program that can be started"):
                Program.find()
            del os.environ["QSYS"]
            with mock.patch("os.access", return_value=False), mock.patch("shutil.which", return_value=script):
                self.assertEqual(Program.find().words, (script,))

    def test_where_there_is_none_the_error_says_what_to_do(self) -> None:
        with mock.patch.dict(os.environ, {"PATH": ""}), mock.patch("pathlib.Path.exists", return_value=False):
            del os.environ["QSYS"]
            with self.assertRaises(radwelio.ProgramMissing) as caught:
                radwelio.run("")
        for word in ("program=", "QSYS", "PATH", "make"):
            self.assertIn(word, str(caught.exception))

    def test_a_file_that_is_no_program(self) -> None:
        path = self.script("#!/no/such/interpreter\n")
        with self.assertRaisesRegex(radwelio.ProgramMissing, "can't be started"):
            radwelio.run("", program=path)


class Failing(ProgramCase):
    def fails(self, script: str, error: type, message: str, call=radwelio.run) -> None:  # type: ignore[no-untyped-def]
        with self.assertRaisesRegex(error, message):
            call(example("sentence"), program=self.script(script))

    def test_a_program_that_is_killed(self) -> None:
        self.fails("import os; os.kill(os.getpid(), 9)", radwelio.ProgramFailed, "ended by the signal 9")

    def test_a_program_that_is_killed_inside_of_a_line(self) -> None:
        self.fails(
            "import os, sys; sys.stdout.write('# A 1\\n-GRA'); sys.stdout.flush(); os.kill(os.getpid(), 11)",
            radwelio.ProgramFailed,
            "ended by the signal 11",
        )

    def test_a_status_that_says_what_failed(self) -> None:
        self.fails("import sys; sys.stdin.read(); sys.exit(7)", radwelio.ProgramFailed, "not enough memory")
        self.fails("import sys; sys.exit(5)", radwelio.ProgramFailed, "more than 4,194,304 bytes")
        self.fails("import sys; sys.exit(70)", radwelio.ProgramFailed, "could not be proved and built")
        self.fails("import sys; sys.exit(42)", radwelio.ProgramFailed, "status 42, which isn't one of its own")

    def test_what_it_tells_on_standard_error_is_told(self) -> None:
        script = "import sys; print('no such rule', file=sys.stderr); sys.exit(70)"
        self.fails(script, radwelio.ProgramFailed, "no such rule")

    def test_half_a_block(self) -> None:
        for written, message in (
            ("# A 1\n", "ends inside of the block of A"),
            ("# A 1\n-GRAPHE-\n", "ends inside of the block of A"),
            ("# A 1\n-GRAPHE-\n-1- X -2-.\n", "ends inside of the block of A"),
            ("# A 1\n-GRAPHE-\n-1- X", "ends inside of a line"),
            ("# A\n", "ends inside of the block of A"),
            ("# A 1\n-VIDE-.\n# B", "ends inside of a line"),
            ("# A 1\n-LIMITE- 3.\n", "something else stands"),
            ("# A 1\n-GRAPHE-\n-1- X( -2-.\n-FIN-\n", "no label stands"),
            ("# A 1\n-GRAPHE-\n-1- X 2-.\n-FIN-\n", "this is no arc"),
            ("hello\n", "where a block should begin stands: hello"),
            ("ÿ\n", "where a block should begin"),
            ("-REFUS- 1 1 Syntax.\n# A 0\n", "behind a refusal more is written"),
        ):
            with self.subTest(written):
                self.fails(f"import sys; sys.stdout.write({written!r})", radwelio.BrokenOutput, message)

    def test_what_is_no_text(self) -> None:
        self.fails(r"import sys; sys.stdout.buffer.write(b'# \xff 0\n')", radwelio.BrokenOutput, "isn't UTF-8")

    def test_a_status_that_does_not_fit_what_is_written(self) -> None:
        self.fails("import sys; print('# A 0\\n-VIDE-.'); sys.exit(2)", radwelio.ProgramFailed, "wrote no refusal")
        self.fails("print('-REFUS- 1 1 Syntax.')", radwelio.ProgramFailed, "as if all were well")

    def test_other_commands_that_write_half(self) -> None:
        self.fails("print('-GRAPHE-')", radwelio.BrokenOutput, "ends inside of the graph of the deck", radwelio.graph)
        with self.assertRaisesRegex(radwelio.BrokenOutput, "`made` tells: -FAIT- 3."):
            radwelio.made(3, program=self.script("print('-FAIT- 3.')"))

    def test_words_that_the_program_refuses(self) -> None:
        with self.assertRaisesRegex(radwelio.ProgramFailed, "refused its words .*--limit 0") as caught:
            radwelio.run(example("sentence"), limit=0)
        self.assertEqual(caught.exception.status, 1)
        self.assertIn("usage: qsys", str(caught.exception))

    def test_a_text_that_is_too_long(self) -> None:
        with self.assertRaisesRegex(radwelio.ProgramFailed, "more than 4,194,304 bytes"):
            radwelio.run(b" " * 5_000_000)

    def test_a_file_that_can_not_be_read(self) -> None:
        class Broken:
            def read(self, size: int) -> bytes:
                raise OSError("the disk is gone")

        with self.assertRaisesRegex(OSError, "the disk is gone"):
            radwelio.run(Broken())  # type: ignore[arg-type]


class Streams(ProgramCase):
    def test_a_program_that_writes_much_before_it_reads(self) -> None:
        script = self.script(
            "import sys\n"
            "for n in range(40000): print('# A 0\\n-VIDE-.')\n"
            "for n in range(40000): print('much is told on standard error', file=sys.stderr)\n"
            "sys.stdin.buffer.read()\n"
        )
        self.assertEqual(len(radwelio.run(b"x" * 4_000_000, program=script)), 40000)

    def test_a_program_that_does_not_read(self) -> None:
        script = self.script("print('# A 0\\n-VIDE-.')")
        self.assertEqual(len(radwelio.run(b"x" * 4_000_000, program=script)), 1)

    def test_no_shell_reads_the_words(self) -> None:
        script = self.script("import sys; print('usage: qsys run|check'); sys.exit(1)", "a program; exit 3 $(false)")
        self.assertEqual(radwelio.commands(script), ("run", "check"))


if __name__ == "__main__":
    unittest.main()
