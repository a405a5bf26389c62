"""The examples in docs/FORMAT.md: the call's bytes with their places, and the files that are refused, with what strict HTML answers to them."""

import re

from harness import ROOT, SAMPLES, Case, frag, unspaced

PAGE = ROOT / "docs" / "FORMAT.md"
FIELDS, FILES, STRICT = 15, 15, 4  # how many the page has; a page that lost them would check nothing

FIELD = re.compile(r"^ +(\d+)  +((?:[0-9A-F]{2,4} )+)", re.MULTILINE)
ANSWER = r"(accepted|\d+ at \d+) \|"
ROW = re.compile(rf"^\| `([0-9A-F ]+)` \| {ANSWER}(?: {ANSWER})?", re.MULTILINE)


class FormatExamples(Case):
    def test_examples(self):
        page = PAGE.read_text(encoding="utf-8")
        call = [(int(place), unspaced(data)) for place, data in FIELD.findall(page)]
        self.same("fields of the call in FORMAT.md", len(call), FIELDS)
        self.same("FORMAT.md: the call's bytes", b"".join(data for _, data in call), (SAMPLES / "call.fragment").read_bytes())
        self.same("FORMAT.md: the call's places", [place for place, _ in call], [sum(len(data) for _, data in call[:at]) for at in range(len(call))])
        rows = ROW.findall(page)
        self.same("files in FORMAT.md", (len(rows), sum(strict != "" for _, _, strict in rows)), (FILES, STRICT))
        for data, answer, strict in rows:
            for asked, right in (([], answer), (["--strict"], strict or answer)):
                _, out, _ = frag("check", *asked, "-", given=unspaced(data))
                self.same("FORMAT.md: %s %s" % (data, asked), out.decode("utf-8").removeprefix("refused "), right + "\n")
