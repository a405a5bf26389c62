"""The script `./hazomeny`: what it builds and when, side by side, for other users, and what it costs. But for the cost it runs in a small
checkout where a few lines stand for the prover and the compiler and write down that they were called."""

import os
import resource
import shutil
import subprocess
import time

from harness import ROOT, Case, as_nobody, built

STUBS = {
    # what it says is what `rt` says
    "bin/rt": """
        echo "rt $*" >>"$CALLS"
        echo "rt: chose --jobs 2 for styles"
        [ ! -e "$CALLS.broken" ] || { echo "rt: the library styles did not build, so nothing above it was checked"; exit 1; }
        echo "fn styles::a: proved"; sleep 0.5; echo "crate styles: modules loaded=1 checked=2"; echo "logic=proved functions=1"
        mkdir -p out && touch out/libhazomeny_c.a
    """,
    "tools/setup": 'echo "setup" >>"$CALLS"',
    "tools/crossed": """
        what=$1; shift
        [ "$what" = cargo ] || exec "$@"
        echo "cargo" >>"$CALLS"
        into=$CARGO_TARGET_DIR/x86_64-unknown-linux-gnu/release
        mkdir -p "$into"; printf '#!/bin/sh\\necho "$PWD: $*"; cat\\n' >"$into/hazomeny"; chmod +x "$into/hazomeny"
    """,
}
SOURCES = ["crates/styles/src/lib.rt", "crates/hazomeny_c/src/lib.rt", ".cargo/config.toml", "bindings/rust/src/lib.rs", "bindings/rust/Cargo.toml", "bindings/rust/build.rs",
           "command/src/main.rs", "command/Cargo.toml", "command/Cargo.lock"]
OWN = ["hazomeny", "tools/library", "tools/unchanged"]
CRATES = "# a comment\nrules:\nstyles: rules\nother: rules\nhazomeny: rules styles\nhazomeny_c staticlib: hazomeny\n"

PROVING = b"hazomeny: proving the library, 4 crates; from nothing this takes minutes\nhazomeny: proved styles, 1 of at most 4\n"
BUILDING = b"hazomeny: building the command\n"
WAITING = b"hazomeny: another call is building it; waiting\n"
ALL_CALLS = ["setup", "rt lib", "cargo"]


class Launcher(Case):
    def setUp(self):
        super().setUp()
        self.folder.chmod(0o755)
        self.root = self.folder / "check out"
        for name in SOURCES:
            self.file(self.root / name, b"")
        self.file(self.root / "crates.txt", CRATES.encode())
        for name, lines in STUBS.items():
            self.file(self.root / name, f"#!/usr/bin/env bash\nset -eu\n{lines}\n".encode()).chmod(0o755)
        for name in OWN:
            shutil.copy(ROOT / name, self.root / name)
        self.script = self.root / "hazomeny"
        self.calls = self.folder / "calls"
        self.env = dict(os.environ, CALLS=str(self.calls), PATH=f"{self.root}/bin:{os.environ['PATH']}")

    def start(self, script=None, by=list, **settings):
        pipes = {name: subprocess.PIPE for name in ("stdin", "stdout", "stderr")}
        return subprocess.Popen(by([script or self.script, "a", "b c"]), env=self.env, **pipes, **settings)

    def called(self, **settings):
        """Status, output and messages of one call that is given a line, and what it called."""
        self.calls.write_text("")
        with self.start(**settings) as running:
            out, error = running.communicate(b"given")
        return running.returncode, out, error, self.calls.read_text().splitlines()

    def printed(self, folder=None):
        return os.fsencode(folder or os.getcwd()) + b": a b c\ngiven"

    def test_once_and_where_a_source_changed(self):
        everything = (0, self.printed(), PROVING + BUILDING, ALL_CALLS)
        nothing = (0, self.printed(), b"", [])
        self.assertEqual(self.called(), everything)
        self.assertEqual(self.called(), nothing)
        for name in SOURCES + ["crates.txt"]:
            with self.subTest(name):
                (self.root / name).touch()
                proved = name.startswith("crates")
                self.assertEqual(self.called(), everything if proved else (0, self.printed(), BUILDING, ["setup", "cargo"]))
                self.assertEqual(self.called(), nothing)
        (self.root / SOURCES[0]).unlink()
        self.assertEqual(self.called(), everything)
        shutil.rmtree(self.root / "target" / "staticlib")
        self.assertEqual(self.called(), nothing)
        shutil.rmtree(self.root / "target")
        self.assertEqual(self.called(), everything)

    def test_from_any_folder(self):
        link = self.folder / "link"
        link.symlink_to(self.script)
        self.assertEqual(self.called(script=link, cwd="/")[:2], (0, self.printed("/")))
        for script, folder in ((self.script, self.folder), ("check out/hazomeny", self.folder), ("./hazomeny", self.root), (link, "/")):
            self.assertEqual(self.called(script=script, cwd=folder), (0, self.printed(folder), b"", []))

    def test_side_by_side(self):
        running = [self.start() for _ in range(3)]
        told = [(*each.communicate(b"given"), each.returncode) for each in running]
        self.assertEqual([(out, status) for out, _, status in told], 3 * [(self.printed(), 0)])
        self.assertEqual(sorted(error for _, error, _ in told), sorted([WAITING, WAITING, PROVING + BUILDING]))
        self.assertEqual(self.calls.read_text().splitlines(), ALL_CALLS)

    def test_what_is_not_proved_is_not_built(self):
        broken = self.folder / "calls.broken"
        broken.touch()
        status, out, error, calls = self.called()
        self.assertEqual((status, out, calls), (3, b"", ALL_CALLS[:2]))
        self.assertIn(b"rt: the library styles did not build, so nothing above it was checked\nhazomeny: the library is not proved; ", error)
        broken.unlink()
        self.assertEqual(self.called(), (0, self.printed(), PROVING + BUILDING, ALL_CALLS))

    def test_a_call_that_was_ended_leaves_no_lock(self):
        first = self.start(start_new_session=True)
        while not (self.calls.exists() and "rt " in self.calls.read_text()):
            time.sleep(0.01)
        os.killpg(first.pid, 15)
        first.communicate()
        self.assertEqual(self.called(), (0, self.printed(), PROVING + BUILDING, ALL_CALLS))

    def test_a_checkout_that_may_only_be_read(self):
        def states():
            return {path: (path.lstat().st_mtime_ns, path.lstat().st_ctime_ns) for path in self.root.rglob("*")}

        self.calls.touch()
        subprocess.run(["chmod", "-R", "a-w", self.root], check=True)
        self.addCleanup(subprocess.run, ["chmod", "-R", "u+w", self.root])
        status, out, error, calls = self.called(by=as_nobody)
        self.assertEqual((status, out, calls), (3, b"", []))
        self.assertIn(b"it has to be built, and ", error)
        subprocess.run(["chmod", "-R", "u+w", self.root], check=True)
        self.assertEqual(self.called()[0], 0)
        subprocess.run(["chmod", "-R", "a-w", self.root], check=True)
        before = states()
        self.assertEqual(self.called(by=as_nobody), (0, self.printed(), b"", []))
        self.assertEqual(states(), before)


class Cost(Case):
    def seconds(self, words):
        """The processor's time of a call, the least of some."""
        def once():
            before = resource.getrusage(resource.RUSAGE_CHILDREN)
            subprocess.run([*words, "--version"], stdout=subprocess.DEVNULL, check=True)
            after = resource.getrusage(resource.RUSAGE_CHILDREN)
            return after.ru_utime - before.ru_utime + after.ru_stime - before.ru_stime

        return min(once() for _ in range(20))

    def test_a_later_call(self):
        more = self.seconds([ROOT / "hazomeny"]) - self.seconds(built())
        print(f"command: the script takes {1000 * more:.1f} ms where nothing is to be built")
        self.assertLess(more, 0.020)
