"""Help, version, wrong arguments, completion and the manual."""

import shutil
import subprocess

from harness import CALL, Case, run

TASKS = ["print", "html", "check", "layout", "mask", "completion", "manual"]
SHELLS = ["bash", "elvish", "fish", "powershell", "zsh"]


class Arguments(Case):
    def test_help_and_version_everywhere(self):
        status, whole, error = run("--help")
        self.assertEqual((status, error), (0, b""))
        for task in TASKS:
            with self.subTest(task):
                self.assertIn(b"\n  %s " % task.encode(), whole)
                status, shown, error = run(task, "--help")
                self.assertEqual((status, error), (0, b""))
                self.assertIn(b"Usage: hazomeny %s" % task.encode(), shown)
                status, shown, error = run(task, "--version")
                self.assertEqual((status, error), (0, b""))
                self.assertRegex(shown, rb"\Ahazomeny\S* [0-9.]+\n\Z")
        self.assertRegex(run("--version")[1], rb"\Ahazomeny [0-9.]+\n\Z")

    def test_wrong_arguments(self):
        wrong = [
            [], ["nonsense"], ["print", "--nonsense"], ["print", "-w", "wide", CALL], ["print", "-w", "-1", CALL], ["print", "-w", "", CALL],
            ["print", ""], ["print", CALL, CALL], ["print", "-j", "0", CALL], ["html", "-o", "", CALL], ["layout", CALL],
            ["mask", "-w", "7", CALL], ["mask", CALL, CALL], ["mask", "-o", "", CALL], ["completion"], ["completion", "tcl"], ["manual", "more"],
            ["print", "--strict", CALL], ["layout", "--strict", "-o", "-", CALL], ["mask", "--strict", CALL], ["--strict", "html", CALL],
            ["html", "--strict", "--strict", CALL], ["html", "--strict=no", CALL], ["check", "--stricter", CALL],
        ]
        for arguments in wrong:
            with self.subTest(arguments):
                status, out, error = run(*arguments)
                self.assertEqual((status, out), (2, b""))
                self.assertIn(b"hazomeny" if not arguments else b"error: ", error)

    def test_help_on_a_full_disk(self):
        for asked in (["--help"], ["manual"], ["completion", "bash"]):
            with open("/dev/full", "wb") as full:
                self.ends(asked, 3, None, b"hazomeny: standard output: No space left on device\n", stdout=full)

    def test_completion(self):
        for shell in SHELLS:
            status, script, error = run("completion", shell)
            self.assertEqual((status, error), (0, b""))
            for task in TASKS:
                self.assertIn(task.encode(), script)
        subprocess.run(["bash", "-n"], input=run("completion", "bash")[1], check=True)

    def test_manual(self):
        status, manual, error = run("manual")
        self.assertEqual((status, error), (0, b""))
        self.assertTrue(manual.startswith(b".TH HAZOMENY 1 "))
        for task in TASKS:
            self.assertIn(b"\n.SS hazomeny %s" % task.encode(), manual)
        for option in (rb"\fB\-w\fR, \fB\-\-width\fR \fIWIDTH\fR", rb"\fB\-\-body\fR", rb"\fB\-\-strict\fR", rb"[default: 80]"):
            self.assertIn(option, manual)
        if shutil.which("groff"):
            told = subprocess.run(["groff", "-man", "-ww", "-Tascii"], input=manual, stdout=subprocess.PIPE, stderr=subprocess.PIPE)
            self.assertEqual((told.returncode, told.stderr), (0, b""))
