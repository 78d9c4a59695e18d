"""Files that are written whole or not at all: on a full disk, at Ctrl-C, over links, and where no file can be made."""

import contextlib
import io
import os
import resource
import stat
import subprocess
import tempfile
import threading
import unittest
from pathlib import Path
from unittest import mock

from mcf_plan import Problem, Session, outputs
from mcf_plan.cli import main
from mcf_plan.conversation import Conversation
from mcf_plan.outputs import write_bytes, write_text
from mcf_plan.report import html_report
from mcf_plan.tables import write_plan

COMMAND = str(Path(__file__).resolve().parents[2] / "mcf-plan")
NOBODY = 65_534
LONG = "a road with a long name " * 50
NODES = "town,supply\nKiel,5\nUlm,-5\n"
ARCS = f"from,to,capacity,cost,name\nKiel,Ulm,2,1.25,{LONG}\nKiel,Ulm,,4,rail\n"


@contextlib.contextmanager
def files_of_at_most(size):
    """In the block no file can become larger, as on a disk that is full."""
    soft, hard = resource.getrlimit(resource.RLIMIT_FSIZE)
    resource.setrlimit(resource.RLIMIT_FSIZE, (size, hard))
    try:
        yield
    finally:
        resource.setrlimit(resource.RLIMIT_FSIZE, (soft, hard))


@contextlib.contextmanager
def as_nobody():
    """In the block the system refuses what it refuses anyone: root may write every file."""
    if os.geteuid():
        yield
        return
    os.seteuid(NOBODY)
    try:
        yield
    finally:
        os.seteuid(0)


class Interrupted(io.FileIO):
    """A file during whose writing Ctrl-C is pressed."""

    def write(self, content):
        super().write(content[: len(content) // 2])
        raise KeyboardInterrupt


class Watched(io.FileIO):
    """A file of which it is kept who may read it while it is written."""

    modes = []

    def write(self, content):
        self.modes.append(stat.S_IMODE(os.fstat(self.fileno()).st_mode))
        return super().write(content)


def plan():
    problem = Problem()
    problem.add_node("Kiel", 5)
    problem.add_node("Ulm", -5)
    problem.add_arc("Kiel", "Ulm", cost=4, name=LONG)
    return problem.solve()


class Outputs(unittest.TestCase):
    def setUp(self):
        folder = tempfile.TemporaryDirectory()
        self.addCleanup(folder.cleanup)
        self.folder = Path(folder.name)
        self.nodes, self.arcs = self.file("nodes.csv", NODES), self.file("arcs.csv", ARCS)

    def file(self, name, text="yesterday"):
        path = self.folder / name
        path.write_text(text, encoding="utf-8")
        return path

    def names(self):
        return sorted(path.name for path in self.folder.iterdir())

    def assertStands(self, path):
        """The file is that of yesterday, and no other was left beside it."""
        self.assertEqual(path.read_text(encoding="utf-8"), "yesterday")
        self.assertEqual(self.names(), sorted(["nodes.csv", "arcs.csv", path.name]))


class FullDisk(Outputs):
    def test_files_of_commands(self):
        for size, command, option, name in (
            (1000, "plan", "--report", "plan.html"),
            (1000, "plan", "--picture", "plan.svg"),
            (1000, "plan", "--table", "plan.csv"),
            (1000, "plan", "--table", "plan.tsv"),
            (1000, "sweep", "--chart", "sweep.svg"),
            (150, "sweep", "--table", "sweep.csv"),
            (10, "convert", "-o", "towns.min"),
        ):
            with self.subTest(command, name=name):
                path = self.file(name)
                words = [command, str(self.nodes), str(self.arcs), option, str(path)]
                if command == "sweep":
                    words += ["--cap", "#1", "--values", ",".join(map(str, range(60)))]
                told = io.StringIO()
                with contextlib.redirect_stdout(io.StringIO()), contextlib.redirect_stderr(told):
                    with files_of_at_most(size):
                        status = main(words)
                stands, names = path.read_text(), self.names()
                path.unlink()
                self.assertEqual((stands, names), ("yesterday", sorted(["nodes.csv", "arcs.csv", name])))
                self.assertEqual((status, told.getvalue().splitlines()[-1]), (4, f"mcf-plan: {path}: File too large"))

    def test_files_of_a_conversation(self):
        path, told = self.file("kept"), io.StringIO()
        with Session(plan().problem) as session:
            conversation = Conversation(session, told)
            with files_of_at_most(10):
                conversation.answer(f"write {path}")
        self.assertStands(path)
        self.assertEqual(told.getvalue(), f"not written: {path}: File too large\n")

    def test_workbooks(self):
        path = self.folder / "plan.xlsx"
        write_plan(plan(), path)
        book = path.read_bytes()
        for name in (path, f"{path}:another"):
            with files_of_at_most(100), self.assertRaisesRegex(OSError, "File too large"):
                write_plan(plan(), name)
            self.assertEqual((path.read_bytes(), self.names()), (book, ["arcs.csv", "nodes.csv", "plan.xlsx"]))

    def test_a_new_file_is_not_begun(self):
        with files_of_at_most(1000), self.assertRaisesRegex(OSError, "File too large"):
            html_report(plan(), self.folder / "plan.html")
        self.assertEqual(self.names(), ["arcs.csv", "nodes.csv"])

    def test_letters_that_no_file_takes(self):
        path = self.file("plan.csv")
        with self.assertRaises(UnicodeEncodeError):
            write_text(path, "half of a letter: \ud83d")
        self.assertStands(path)


class Interrupt(Outputs):
    def test_in_the_middle_of_a_file(self):
        path = self.file("plan.html")
        for name in (path, self.folder / "new.html"):
            with mock.patch.object(outputs, "open", Interrupted, create=True), self.assertRaises(KeyboardInterrupt):
                html_report(plan(), name)
            self.assertStands(path)

    def test_before_it_takes_its_place(self):
        path = self.file("plan.csv")
        with mock.patch("os.replace", side_effect=KeyboardInterrupt), self.assertRaises(KeyboardInterrupt):
            write_plan(plan(), path)
        self.assertStands(path)


class OfAnyKind(Outputs):
    def test_a_link_stays_one(self):
        path, link = self.file("plan.csv"), self.folder / "link.csv"
        link.symlink_to("plan.csv")
        write_text(link, "today")
        self.assertEqual((path.read_text(), os.readlink(link)), ("today", "plan.csv"))

    def test_a_link_to_nothing(self):
        link = self.folder / "link.csv"
        link.symlink_to("plan.csv")
        write_text(link, "today")
        self.assertEqual(((self.folder / "plan.csv").read_text(), os.readlink(link)), ("today", "plan.csv"))

    def test_modes(self):
        path, new = self.file("plan.csv"), self.folder / "new.csv"
        before = os.umask(0o027)
        self.addCleanup(os.umask, before)
        for mode in (0o600, 0o664, 0o755):
            path.chmod(mode)
            write_text(path, "today")
            self.assertEqual(stat.S_IMODE(path.stat().st_mode), mode)
        with mock.patch.object(outputs, "open", Watched, create=True):
            write_text(path, "today")
            write_text(new, "today")
        self.assertEqual((stat.S_IMODE(new.stat().st_mode), Watched.modes), (0o640, [0o600, 0o640]))

    @unittest.skipIf(os.geteuid(), "another owner wants root: what becomes of the owner of a file was not looked at")
    def test_owner(self):
        path = self.file("plan.csv")
        os.chown(path, NOBODY, NOBODY)
        write_text(path, "today")
        self.assertEqual((path.stat().st_uid, path.stat().st_gid), (NOBODY, NOBODY))

    def test_a_pipe(self):
        path, heard = self.folder / "pipe", []
        os.mkfifo(path)
        reader = threading.Thread(target=lambda: heard.append(path.read_text()), daemon=True)
        reader.start()
        write_text(path, "today")
        reader.join(60)
        self.assertEqual((heard, stat.S_ISFIFO(path.stat().st_mode)), (["today"], True))

    def test_a_device(self):
        write_text(os.devnull, "today")
        with self.assertRaises(OSError) as caught:
            write_text("/dev/full", "today")
        self.assertEqual(
            (caught.exception.filename, caught.exception.strerror), ("/dev/full", "No space left on device")
        )
        self.assertTrue(stat.S_ISCHR(os.stat("/dev/full").st_mode))

    def test_the_output_by_its_name(self):
        """Where a shell leads the output to a file, what is printed behind it goes there too."""
        path = self.folder / "told"
        command = [COMMAND, "convert", str(self.nodes), str(self.arcs), "-o", "/dev/stdout"]
        with open(path, "ab") as output:
            subprocess.run(command, stdout=output, stderr=subprocess.DEVNULL, check=True)
            output.write(b"behind\n")
        lines = path.read_text().splitlines()
        self.assertEqual((lines[0], lines[-1]), ("p min 2 2", "behind"))


class Closed(Outputs):
    """What the system does not let one do."""

    def setUp(self):
        super().setUp()
        self.path = self.file("plan.csv")
        if os.geteuid() == 0:
            os.chown(self.path, NOBODY, NOBODY)
            os.chown(self.folder, NOBODY, NOBODY)

    def test_a_file_that_may_not_be_written(self):
        self.path.chmod(0o444)
        with as_nobody(), self.assertRaises(PermissionError) as caught:
            write_text(self.path, "today")
        self.assertEqual(caught.exception.filename, str(self.path))
        self.assertStands(self.path)

    def test_a_folder_in_which_no_file_may_be_made(self):
        self.folder.chmod(0o555)
        self.addCleanup(self.folder.chmod, 0o755)
        with as_nobody():
            write_text(self.path, "today")
            with self.assertRaises(PermissionError):
                write_text(self.folder / "new.csv", "today")
        self.assertEqual(self.path.read_text(), "today")

    @unittest.skipIf(os.geteuid(), "another owner wants root: a file of another was not written")
    def test_a_file_of_another(self):
        """Nobody but root can give a file away, so it is written in place."""
        os.chown(self.path, 0, 0)
        self.path.chmod(0o666)
        with as_nobody():
            write_text(self.path, "today")
        self.assertEqual((self.path.read_text(), self.path.stat().st_uid, len(self.names())), ("today", 0, 3))

    def test_no_folder(self):
        for path in (self.folder / "nowhere" / "plan.csv", self.path / "plan.csv", self.folder):
            with self.assertRaises(OSError) as caught:
                write_bytes(path, b"today")
            self.assertEqual(caught.exception.filename, str(path))


if __name__ == "__main__":
    unittest.main()
