"""The examples in tools/NOTATION.md: notation builds, and commands print what the page shows."""

import re
import shlex

from harness import ROOT, Case, command, frag

PAGE = ROOT / "tools" / "NOTATION.md"
NOTATIONS, COMMANDS = 2, 7  # how many the page has; a page that lost them would check nothing


class PageExamples(Case):
    def test_page(self):
        blocks = re.findall(r"^```\n(.*?)^```$", PAGE.read_text(encoding="utf-8"), re.M | re.S)
        notations = [block for block in blocks if not block.startswith("$ ")]
        self.same("notations in NOTATION.md", len(notations), NOTATIONS)
        for block in notations:
            status, data, error = frag("build", "-", given=block.encode("utf-8"))
            self.same("NOTATION.md: %.40r" % block, (status, data != b"", error), (0, True, ""))
        examples = "".join(block for block in blocks if block.startswith("$ ")).split("$ frag ")[1:]
        self.same("commands in NOTATION.md", len(examples), COMMANDS)
        for example in examples:
            self.shown(*example.split("\n", 1))

    def shown(self, line, expected):
        """What a terminal shows: standard output, unless it goes to a file, then standard error."""
        words, _, to_file = line.partition(" > ")
        _, out, error = command(*shlex.split(words), cwd=ROOT)
        terminal = ("" if to_file else out.decode("utf-8")) + error
        if expected.endswith("...\n"):
            expected = expected[:-len("...\n")]
            terminal = terminal[:len(expected)]
        self.same("NOTATION.md: frag " + line, terminal, expected)
