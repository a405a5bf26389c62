"""Chromium without a window: finding or installing it, and calling it within a time limit, without the network, leaving nothing behind."""

import collections
import contextlib
import json
import os
import pathlib
import shutil
import signal
import subprocess
import tempfile
import urllib.parse

HARNESS = pathlib.Path(__file__).resolve().parent / "harness.html"

PACKAGES = ["chromium", "fonts-dejavu-core"]
LISTS_SECONDS = 120
INSTALL_SECONDS = 600
CALL_SECONDS = 90

# No window and no graphics card; root may not use the sandbox, and the documents are our own; containers have little shared memory.
PLAIN = ["--headless", "--no-sandbox", "--disable-gpu", "--disable-dev-shm-usage"]
# Nothing is fetched in the background, and no name is found where something tries.
OFFLINE = ["--disable-background-networking", "--disable-component-update", "--no-first-run", "--host-resolver-rules=MAP * ~NOTFOUND"]

Ended = collections.namedtuple("Ended", "status out error")


class Unavailable(Exception):
    """There is no browser, and none can be installed."""


class Failed(Exception):
    """The browser did not do what it was called for."""


def find_or_install():
    """The path of the browser."""
    if not shutil.which("chromium"):
        install()
    return shutil.which("chromium")


def install():
    if not shutil.which("apt-get"):
        raise Unavailable("chromium is not on the PATH, and there is no apt-get to install it")
    # Lists that cannot be fetched matter only if the packages cannot be either, which the installation tells.
    bounded(["apt-get", "update", "-qq"], LISTS_SECONDS)
    quietly = dict(os.environ, DEBIAN_FRONTEND="noninteractive")
    ended = bounded(["apt-get", "install", "-y", "-qq", "--no-install-recommends", *PACKAGES], INSTALL_SECONDS, quietly)
    if ended.status != 0 or not shutil.which("chromium"):
        raise Unavailable(f"chromium is not on the PATH, and apt-get does not install it: {how(ended)}")


def opened(browser, paths):
    """What the browser made of each of these documents; harness.html says what that is."""
    url = HARNESS.as_uri() + "?" + "&".join(path.as_uri() for path in paths)
    # The harness looks into its frames, which files may not do otherwise.
    ended = call(browser, ["--allow-file-access-from-files", "--dump-dom", url])
    _, begun, rest = ended.out.decode("utf-8", "replace").partition("<output>")
    report, ended_too, _ = rest.partition("</output>")
    if ended.status != 0 or not (begun and ended_too and report):
        raise Failed(f"no report on the documents: {how(ended)}")
    return json.loads(urllib.parse.unquote(report))


def call(browser, arguments):
    with private_directory() as home:
        # Besides its profile the browser writes to the home directory.
        settings = {name: value for name, value in os.environ.items() if not name.startswith("XDG_")}
        settings["HOME"] = home
        return bounded([browser, *PLAIN, *OFFLINE, f"--user-data-dir={home}/profile", *arguments], CALL_SECONDS, settings)


@contextlib.contextmanager
def private_directory():
    path = tempfile.mkdtemp(prefix="browser-")
    try:
        yield path
    finally:
        shutil.rmtree(path, ignore_errors=True)


def bounded(command, seconds, settings=None):
    """Runs a command for at most so long, and ends whatever it started with it; the status is None if it took longer."""
    # The output goes to files, since what a command starts may hold a pipe open for longer than it runs itself.
    with tempfile.TemporaryFile() as out, tempfile.TemporaryFile() as error:
        process = subprocess.Popen(
            command, stdin=subprocess.DEVNULL, stdout=out, stderr=error, env=settings, start_new_session=True
        )
        try:
            status = process.wait(seconds)
        except subprocess.TimeoutExpired:
            status = None
        finally:
            end_group(process)
        return Ended(status, written(out), written(error))


def end_group(process):
    """Ends the process and whatever it has started since."""
    with contextlib.suppress(ProcessLookupError):
        os.killpg(process.pid, signal.SIGKILL)
    process.wait()


def written(file):
    file.seek(0)
    return file.read()


def how(ended):
    """How a command ended, for a message."""
    if ended.status is None:
        return "it took too long and was ended"
    last = ended.error.decode("utf-8", "replace").strip().rpartition("\n")[2]
    return f"status {ended.status}, {last or 'no message'}"
