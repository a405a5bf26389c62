"""The documents to open, made by the proved programs, and what a browser must make of them."""

import collections
import functools
import itertools
import pathlib
import re
import subprocess

import returns

HERE = pathlib.Path(__file__).resolve().parent
ROOT = HERE.parent.parent
OUT = ROOT / "target" / "browser"

# No text of these holds a CR or a NUL: a browser reads the first as a newline and leaves the second out.
SAMPLES = ("call", "layout", "shader", "styles", "underline")

Document = collections.namedtuple("Document", "name file page html path")

# The fields that links are found by, and those that hold others with links in them.
DEFINITION, USE = 18, 19
HOLDERS = (2, 3, 4, 8)

TAG = re.compile(r'(<[^<>"]*(?:"[^"]*"[^<>"]*)*>)')
QUOTED = re.compile(r'"[^"]*"')


def make(widths):
    """Documents at each of these widths that give their pages back: loose ones, and the strict ones of files with a CR in a text."""
    yield from made("html", files(), widths)
    yield from made("html_strict", returns.with_returns(), widths)


def make_spoiled(widths):
    """Documents that do not: loose ones of files with a CR or a NUL in a text."""
    yield from made("html", itertools.chain(returns.with_returns(), returns.with_nuls()), widths)


def made(kind, files, widths):
    """The document that this program prints of each of the files."""
    OUT.mkdir(parents=True, exist_ok=True)
    for (name, file), width in itertools.product(files, widths):
        page, html = (printed(program(each), width, file) for each in ("page", kind))
        path = OUT / f"{kind}-{name.replace(' ', '-')}-{width}.html"
        path.write_bytes(html)
        yield Document(f"{kind}: {name} at {width}", file, decoded(page), decoded(html), path)


def files():
    for name in SAMPLES:
        yield name, (ROOT / "samples" / f"{name}.fragment").read_bytes()
    yield "hostile", subprocess.run([ROOT / "tools" / "frag", "build", HERE / "hostile.frag"], stdout=subprocess.PIPE, check=True).stdout


@functools.cache
def program(name):
    """The command that runs a proved program."""
    return subprocess.run([ROOT / "tools" / "program", name], stdout=subprocess.PIPE, check=True, text=True).stdout.split()


def printed(command, width, file):
    return subprocess.run(command, input=width.to_bytes(2, "big") + file, stdout=subprocess.PIPE, check=True).stdout


def decoded(output):
    """The output as text; what is not UTF-8 in it becomes what no browser makes of it."""
    return output.decode("utf-8", "backslashreplace")


def links(file):
    """Of each link in the document: its id, its href, and which link of the document, counted from 0, it leads to, or -1."""
    found = list(anchors(file))
    defined = [name if defines else None for defines, name in found]
    return [[own, f"#{name}", defined.index(name) if name in defined else -1] for own, (_, name) in zip(defined, found)]


def anchors(fields):
    """Of each anchor in these fields, in order: whether it defines its name, and the name."""
    while fields:
        tag, end = fields[0], 3 + int.from_bytes(fields[1:3], "big")
        value, fields = fields[3:end], fields[end:]
        if tag in (DEFINITION, USE):
            yield tag == DEFINITION, value.decode()
        elif tag in HOLDERS:
            yield from anchors(value)


def written_again(html):
    """
    What a browser that has read this document writes out, if each tag stands where it may and each is closed in turn.

    A browser corrects a faulty document silently while it reads, and what it has corrected comes out changed. A sound one comes out as it
    was but for the changes made here, which writing out always makes.
    """
    html = moved_newlines(html)
    pieces = TAG.split(html)
    pieces[0::2] = [escaped(text.replace("&#13;", "\r"), "\u00a0>") for text in pieces[0::2]]
    pieces[1::2] = [QUOTED.sub(lambda value: '"' + escaped(value[0][1:-1], "&\u00a0<>") + '"', tag) for tag in pieces[1::2]]
    return "".join(pieces).replace("<!doctype html>", "<!DOCTYPE html>", 1)


def spoiled(html):
    """The text that a browser takes from a document with CRs and NULs: it reads newlines before tags, and drops NULs behind them."""
    read = html.replace("\r\n", "\n").replace("\r", "\n")
    inside = re.search(r"<pre [^>]*>\n(.*)</pre>", read, re.S)[1]
    return TAG.sub("", inside).replace("\0", "").replace("&lt;", "<").replace("&amp;", "&")


def moved_newlines(html):
    """Newlines before the head and the one that begins a pre are dropped while reading; those after the body's end go into the body."""
    html = html.replace("<!doctype html>\n<html>\n<head>", "<!doctype html><html><head>", 1)
    html = re.sub(r"(<pre [^>]*>)\n", r"\1", html, count=1)
    return re.sub(r"</body>\n</html>\n\Z", "\n\n</body></html>", html)


def escaped(text, characters):
    names = {"&": "&amp;", "\u00a0": "&nbsp;", "<": "&lt;", ">": "&gt;"}
    return "".join(names[each] if each in characters else each for each in text)
