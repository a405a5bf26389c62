"""The command line of `frag`: arguments, files in and out, messages and exit statuses."""

import argparse
import os
import re
import signal
import sys

from . import dump, hexes, masking, notation, unparse
from .items import encode, offset_of
from .reading import check, read
from .source import NotUtf8, SourceError, decoded, line_and_column, shown

ACCEPTED, REFUSED, TROUBLE = 0, 1, 2  # exit statuses

DESCRIPTION = """\
Makes, prints and checks fragment files, the input of the listing printer.
FILE and NOTATION may be '-' for standard input. Exit statuses: 0 for done or
accepted, 1 for a refused file, 2 for input that cannot be used."""


class Trouble(Exception):
    """What stops a command; its text is the message."""


def main(arguments):
    """The command as a process of its own."""
    if hasattr(signal, "SIGPIPE"):
        signal.signal(signal.SIGPIPE, signal.SIG_DFL)  # end quietly when a reader goes away
    try:
        return run(arguments)
    except KeyboardInterrupt:
        return 130


def run(arguments):
    """The exit status, after all is read from and written to the standard streams and files."""
    options = arguments_parser().parse_args(arguments or ["help"])
    try:
        return options.run(options)
    except Trouble as trouble:
        complain(str(trouble))
        return TROUBLE


def complain(message):
    if sys.stderr is not None:
        print("frag: " + message, file=sys.stderr)


# Files in and out


def read_input(name):
    try:
        if name != "-":
            with open(name, "rb") as stream:
                return stream.read()
        if sys.stdin is None:
            raise Trouble("standard input: closed")
        return sys.stdin.buffer.read()
    except OSError as error:
        raise Trouble("%s: %s" % (called(name), error.strerror)) from None


def called(name):
    return "standard input" if name == "-" else name


def write_output(data, name=None):
    """To a file, or to standard output; the whole output is made before any of it is written."""
    name = None if name == "-" else name
    try:
        if name is not None:
            with open(name, "wb") as stream:
                stream.write(data)
        elif sys.stdout is None:
            raise Trouble("standard output: closed")
        else:
            sys.stdout.buffer.write(data)
            sys.stdout.buffer.flush()
    except OSError as error:
        if name is None:  # or Python would try to write the rest once more while it ends
            os.dup2(os.open(os.devnull, os.O_WRONLY), 1)
        raise Trouble("%s: %s" % (name or "standard output", error.strerror)) from None


def write_lines(lines):
    """Text goes out as UTF-8 whatever the terminal's language."""
    write_output("".join(line + "\n" for line in lines).encode("utf-8"))


def from_source(name, use):
    """What `use` makes of a source file's text, its faults told with line and column."""
    text = ""
    try:
        text = decoded(read_input(name))
        return text, use(text)
    except NotUtf8 as fault:
        raise Trouble(fault.message(called(name), fault.sound)) from None
    except SourceError as fault:
        raise Trouble(fault.message(called(name), text)) from None


# The commands


def run_build(options):
    def use(text):
        items = notation.parse(text)
        return items, encode(items)

    text, (items, data) = from_source(options.notation, use)
    refusal = check(data)
    if refusal:
        offset = offset_of(items, refusal.place)
        where = "" if offset is None else ":" + line_and_column(text, offset)
        complain("%s%s: warning: the built file is %s: %s" % (
            called(options.notation), where, refusal.answer(), refusal.words))
    write_output(data, options.output)
    return ACCEPTED


def run_dump(options):
    data = read_input(options.file)
    fields, refusal = read(data)
    if options.notation:
        write_lines(unparse.notation_lines(data, fields, refusal))
    else:
        write_lines(dump.tree_lines(data, fields))
    return told(refusal)


def told(refusal):
    """The exit status for a file's first fault, which is told on standard error, or for none."""
    if refusal is None:
        return ACCEPTED
    if sys.stderr is not None:
        print("%s: %s" % (refusal.answer(), refusal.words), file=sys.stderr)
    return REFUSED


def run_mask(options):
    if options.lines:
        return agree_lines(MASKED, mask_answer)
    if options.file is None:
        raise Trouble("mask: found neither a FILE nor --lines, expected one of them")
    mask, refusal = masking.mask(read_input(options.file))
    if refusal is None:
        write_output(mask, options.output)
    return told(refusal)


def mask_answer(data):
    mask, refusal = masking.mask(data)
    return refusal.answer() if refusal else "masked " + mask.hex()


def run_check(options):
    if options.lines:
        return agree_lines(CHECKED, lambda data: answer(check(data, options.strict)))
    if options.file is None:
        raise Trouble("check: found neither a FILE nor --lines, expected one of them")
    refusal = check(read_input(options.file), options.strict)
    write_lines([answer(refusal)])
    return REFUSED if refusal else ACCEPTED


def answer(refusal):
    return refusal.answer() if refusal else "accepted"


# What a line may answer where it does not refuse: a pattern, and what it is called.
CHECKED = ("accepted", "'accepted'")
MASKED = ("masked [0-9a-f]*", "'masked HEX'")


def agree_lines(kind, answer_to):
    """Compares this reader with another one's answers, line by line as they come."""
    if sys.stdin is None:
        raise Trouble("standard input: closed")
    agreed = 0
    for number, line in enumerate(sys.stdin.buffer, 1):
        data, theirs = answered_line(number, line, kind)
        ours = answer_to(data)
        if ours != theirs:
            write_lines(["line %d disagrees: %s" % (number, data.hex() or "(empty file)"),
                         "  the line says: %s" % theirs, "  frag says: %s" % ours,
                         "%d lines before it agree" % agreed])
            return REFUSED
        agreed += 1
    if agreed == 0:  # or a judge that printed nothing would seem to agree
        raise Trouble("standard input: found no line, expected lines of hex and answer")
    write_lines(["%d lines agree" % agreed])
    return ACCEPTED


def answered_line(number, line, kind):
    """The file and the answer of a line `HEX ANSWER`."""
    pattern, words = kind
    text = line.decode("utf-8", "replace").rstrip("\r\n")
    digits, space, theirs = text.partition(" ")
    try:
        data = bytes.fromhex(digits)
    except ValueError:
        space = ""
    if not space or not re.fullmatch(pattern + "|refused .*", theirs):
        raise Trouble("standard input:%d:1: found %s, expected hex digits, a space, and %s "
                      "or 'refused N at P'" % (number, shown(text), words))
    return data, theirs


def run_hex(options):
    write_lines(hexes.hex_lines(read_input(options.file)))
    return ACCEPTED


def run_unhex(options):
    _, data = from_source(options.file, hexes.unhex)
    write_output(data, options.output)
    return ACCEPTED


# The arguments


def arguments_parser():
    parser = argparse.ArgumentParser(
        prog="frag", description=DESCRIPTION,
        formatter_class=argparse.RawDescriptionHelpFormatter)
    commands = parser.add_subparsers(title="commands", metavar="COMMAND", required=True)
    for name, run, about, arguments in COMMANDS:
        command = commands.add_parser(name, help=about, description=about)
        command.set_defaults(run=run)
        for names, settings in arguments:
            command.add_argument(*names, **settings)
    helper = commands.add_parser("help", help="Show this help, or a command's.")
    helper.add_argument("command", nargs="?", choices=list(commands.choices), metavar="COMMAND")
    helper.set_defaults(run=lambda options: run_help(parser, commands, options))
    return parser


def run_help(parser, commands, options):
    shown_parser = commands.choices[options.command] if options.command else parser
    write_output(shown_parser.format_help().encode("utf-8"))
    return ACCEPTED


FILE = (("file",), {"metavar": "FILE", "help": "a fragment file, or - for standard input"})
OUTPUT = (("-o",), {"dest": "output", "metavar": "FILE",
                    "help": "write there, not to standard output"})

COMMANDS = [
    ("build", run_build, "Make a fragment file from the notation.",
     [(("notation",), {"metavar": "NOTATION", "help": "the notation, or - for standard input"}),
      OUTPUT]),
    ("dump", run_dump, "Print a file as a tree with places, or as notation.",
     [(("--notation",), {"action": "store_true",
                         "help": "print notation that builds to the same bytes"}), FILE]),
    ("check", run_check, "Say whether a file is accepted, or its first fault.",
     [(("--strict",), {"action": "store_true",
                       "help": "for strict HTML, which also refuses a NUL in a text"}),
      (("--lines",), {"action": "store_true",
                      "help": "compare with answers 'HEX accepted' or 'HEX refused N at P' "
                              "from standard input"}),
      (("file",), {"nargs": "?", "metavar": "FILE",
                   "help": "a fragment file, or - for standard input"})]),
    ("mask", run_mask, "Make a file's mask: the same with x for each byte of its texts.",
     [(("--lines",), {"action": "store_true",
                      "help": "compare with answers 'HEX masked HEX' or 'HEX refused N at P' "
                              "from standard input"}),
      (("file",), {"nargs": "?", "metavar": "FILE",
                   "help": "a fragment file, or - for standard input"}), OUTPUT]),
    ("hex", run_hex, "Print a file's bytes as hex, a top-level field to a row.", [FILE]),
    ("unhex", run_unhex, "Make bytes from hex digits, white space and # comments.",
     [(("file",), {"nargs": "?", "default": "-", "metavar": "FILE",
                   "help": "the hex, or standard input"}), OUTPUT]),
]
