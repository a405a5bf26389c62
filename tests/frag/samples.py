"""The samples: built files are what the notation builds today; faulty ones are so as they say."""

import re

from harness import SAMPLES, Case, command, frag

WANTED = {"call", "shader", "styles", "layout", "underline", "returns"}
STRICT = 14  # what strict HTML alone refuses
NUMBERS = {*range(3, 10), STRICT}  # what a file alone can be refused by, but for its size


class Samples(Case):
    def test_samples(self):
        sound = sorted(SAMPLES.glob("*.frag"))
        faulty = sorted((SAMPLES / "refused").glob("*.frag"))
        self.same("the samples there are", {each.stem for each in sound}, WANTED)
        built = {each.with_suffix(".frag") for each in SAMPLES.rglob("*.fragment")}
        self.same("notation and built file come in pairs", built, set(sound + faulty))
        for each in sound:
            self.same_as_built(each, "accepted", "accepted")
        numbers = set()
        for each in faulty:
            said = re.match(r"# (refused ([0-9]+) at [0-9]+): ", each.read_text(encoding="utf-8"))
            self.same("%s says its refusal" % each.name, said is not None, True)
            if said:
                numbers.add(int(said[2]))
                self.same_as_built(each, said[1], "accepted" if int(said[2]) == STRICT else said[1])
        self.same("refusals that have a sample", numbers, NUMBERS)

    def same_as_built(self, notation, strict, answer):
        """`answer` is the check's, and `strict` that for strict HTML."""
        stored = notation.with_suffix(".fragment").read_bytes()
        status, built, warning = command("build", notation)
        self.same("%s builds to the file beside it" % notation.name, (status, built), (0, stored))
        self.same("%s: warned of a refused file alone" % notation.name, bool(warning),
                  answer != "accepted")
        for right, asked in ((answer, []), (strict, ["--strict"])):
            self.same("%s: checked %s" % (notation.name, asked),
                      frag("check", *asked, notation.with_suffix(".fragment")),
                      (0 if right == "accepted" else 1, right.encode() + b"\n", ""))
        again = frag("dump", "--notation", "-", given=stored)[1]
        self.same("%s: back in notation, and built again" % notation.name,
                  frag("build", "-", given=again)[1], stored)
        as_hex = frag("hex", "-", given=stored)[1]
        self.same("%s: to hex and back" % notation.name, frag("unhex", given=as_hex)[1], stored)
