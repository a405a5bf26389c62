#!/usr/bin/env python3
"""Holds the C header and the Rust crate to the proved library: the same functions, with the same parameters by name, order and type, and the
same return type; the same limits. Holds the two to each other in what only they name: the writer's steps and a style's bytes. A linker compares
none of this, and two parameters of one type can be swapped without a compiler's word."""

import pathlib
import re
import sys
import unittest

sys.dont_write_bytecode = True

ROOT = pathlib.Path(__file__).resolve().parents[2]
PROVED = (ROOT / "crates" / "hazomeny_c" / "src" / "lib.rt").read_text()
HEADER = (ROOT / "include" / "hazomeny.h").read_text()
CRATE = ROOT / "bindings" / "rust" / "src"
RUST = (CRATE / "c.rs").read_text()
LIMITS = (CRATE / "limits.rs").read_text()
STEPS = (CRATE / "step.rs").read_text()
STYLE = (CRATE / "style.rs").read_text()
CODE_LIMITS = (ROOT / "crates" / "rules" / "src" / "lib.rt").read_text()
RULE_LIMITS = (ROOT / "crates" / "rules" / "specs" / "Limits.antt").read_text()

# The limits that a caller has to know, by their names in the proved code.
CALLERS_LIMITS = ["MOST_BYTES", "MOST_COLUMNS", "PLAIN_PER_BYTE", "HTML_PER_BYTE", "HTML_FRAME"]

# What the header leaves out: the command and the benchmark use it through the crate, which does not show it.
INNER = ["hazomeny_print"]

# What a parameter of a proved entry is in C and in Rust: a slice is a pointer and a length, and where a page or a writer's file is lent to be filled the
# length is called its room. The second file of a pair has a length of its own.
LENGTHS = {"page": "room", "mask": "mask_length"}
WRITERS_LENGTHS = {"file": "room"}
C_TYPES = {
    "&[u8]": "const uint8_t *{}",
    "&mut [u8]": "uint8_t *{}",
    "&[u8; 18]": "const uint8_t {}[18]",
    "&mut [u32; 2]": "uint32_t {}[2]",
    "u8": "uint8_t {}",
    "u32": "uint32_t {}",
    "usize": "size_t {}",
    "u64": "uint64_t {}",
}
RUST_TYPES = {
    "&[u8]": "*const u8",
    "&mut [u8]": "*mut u8",
    "&[u8; 18]": "*const [u8; 18]",
    "&mut [u32; 2]": "*mut [u32; 2]",
    "u8": "u8",
    "u32": "u32",
    "usize": "usize",
    "u64": "u64",
}


def entries(source=PROVED):
    """The name, the parameters and the return type of each entry with a C name."""
    found = re.findall(r'#\[unsafe\(no_mangle\)\]\npub extern "C" fn (\w+)\((.*?)\) -> (\w+)\n', source, re.S)
    return [(name, [each.split(": ") for each in one_line(parameters).split(", ")], kind) for name, parameters, kind in found]


def one_line(text):
    """A list that may be broken into lines, with a comma behind its last part."""
    return " ".join(text.split()).replace("( ", "(").replace(", )", ")").strip(", ")


def flat(entry, parameters):
    """The parameters one by one, each slice followed by its length."""
    lengths = WRITERS_LENGTHS if entry == "hazomeny_write" else LENGTHS
    for name, kind in parameters:
        yield name, kind
        if "[u8]" in kind:
            yield lengths.get(name, "length"), "usize"


def in_c(name, parameters, kind):
    listed = ", ".join(C_TYPES[of].format(each) for each, of in flat(name, parameters))
    return f"{C_TYPES[kind].format(name)}({listed});"


def in_rust(name, parameters, kind):
    listed = ", ".join(f"{each}: {RUST_TYPES[of]}" for each, of in flat(name, parameters))
    return f"pub fn {name}({listed}) -> {RUST_TYPES[kind]};"


def wanted(right):
    """The declarations of all entries, as the header or the crate has them."""
    return [right(*each) for each in entries() if right is in_rust or each[0] not in INNER]


def declared_in_c(header):
    return [one_line(each) for each in re.findall(r"^\w[\w ]*\bhazomeny_\w+\([^)]*\);", header, re.M)]


def declared_in_rust(source):
    return [one_line(each) for each in re.findall(r"\bpub fn hazomeny_\w+\([^)]*\)(?: -> \w+)?;", source)]


def numbered(pattern, source):
    """The numbers that the pattern finds in a source, by their names in the proved code."""
    return {name.upper(): int(number.replace("_", "")) for name, number in re.findall(pattern, source, re.M)}


def constants(source):
    """The constants of a source in Rust or Rattle."""
    return numbered(r"^pub const (\w+): \w+ = ([\d_]+);", source)


def limits_in_c(header):
    return numbered(r"\bHAZOMENY_(?!STEP_)(\w+) = (\d+)\b", header)


def limits_in_rules(definitions):
    return numbered(r"^([a-z_]+) = ([\d_]+)$", definitions)


def steps_in_c(header):
    return numbered(r"\bHAZOMENY_STEP_(\w+) = (\d+)\b", header)


def steps_in_rust(source):
    """The cases of an enumeration, each of its words with a capital."""
    cases = re.findall(r"^    (\w+) = (\d+),$", source, re.M)
    return {re.sub(r"(?<!^)(?=[A-Z])", "_", name).upper(): int(number) for name, number in cases}


def named_in_c(header):
    """The step that each function of the header makes, by the function's name."""
    found = re.findall(r"^static inline uint64_t hazomeny_(\w+)\([^{]*\{\s*return hazomeny_step\w*\(writer, HAZOMENY_STEP_(\w+)[,)]", header, re.M)
    return {re.sub(r"^write_", "", name).upper(): step for name, step in found}


def style_in_c(header):
    """Where each member of the struct begins; the bytes of all stand behind the last."""
    members = re.findall(r"^    uint8_t (\w+)(?:\[(\d)\])?;", header, re.M)
    places, at = {}, 0
    for name, count in members:
        places[name.upper()] = at
        at += int(count or 1)
    return dict(places, STYLE_BYTES=at)


def style_in_rust(source):
    return numbered(r"^ *pub(?:\(crate\))? const (\w+): usize = (\d+);", source)


class Steps(unittest.TestCase):
    """What the header and the crate name alike; that the numbers are the library's, their tests show."""

    def test_the_numbers(self):
        self.assertEqual(steps_in_c(HEADER), steps_in_rust(STEPS))
        self.assertEqual(sorted(steps_in_c(HEADER).values()), list(range(20)))

    def test_the_functions(self):
        self.assertEqual(named_in_c(HEADER), {name: name for name in steps_in_c(HEADER)})

    def test_a_style(self):
        self.assertEqual(style_in_c(HEADER), style_in_rust(STYLE))
        self.assertEqual(style_in_c(HEADER)["STYLE_BYTES"], 18)

    def test_mistakes_are_found(self):
        for found, source, was, wrong in [
            (steps_in_c, HEADER, "STEP_CLOSE_BLOCK = 9", "STEP_CLOSE_BLOCK = 11"),
            (steps_in_rust, STEPS, "NextEntry = 16", "NextEntry = 17"),
            (named_in_c, HEADER, "return hazomeny_step(writer, HAZOMENY_STEP_CLOSE_ANCHOR)", "return hazomeny_step(writer, HAZOMENY_STEP_CLOSE_BLOCK)"),
            (style_in_c, HEADER, "    uint8_t has_size;\n", ""),
            (style_in_c, HEADER, "    uint8_t dim;\n    uint8_t underline;\n", "    uint8_t underline;\n    uint8_t dim;\n"),
            (style_in_rust, STYLE, "SUBSCRIPT: usize = 14", "SUBSCRIPT: usize = 15"),
            (style_in_rust, STYLE, "UNDERLINE: usize = 17", "UNDERLINE: usize = 16"),
        ]:
            with self.subTest(wrong):
                self.assertIn(was, source)
                self.assertNotEqual(found(source.replace(was, wrong, 1)), found(source))


class Limits(unittest.TestCase):
    """What code compares with a limit is proved to be the rule's; a limit that only callers use is held to the rule here alone."""

    def setUp(self):
        proved = limits_in_rules(RULE_LIMITS)
        self.right = {name: proved.get(name) for name in CALLERS_LIMITS}

    def test_the_code(self):
        self.assertEqual(constants(CODE_LIMITS), limits_in_rules(RULE_LIMITS))

    def test_the_header(self):
        self.assertEqual(limits_in_c(HEADER), self.right)

    def test_the_crate(self):
        self.assertEqual(constants(LIMITS), self.right)

    def test_mistakes_are_found(self):
        for found, source, was, wrong in [
            (limits_in_c, HEADER, "PLAIN_PER_BYTE = 67", "PLAIN_PER_BYTE = 66"),
            (limits_in_c, HEADER, "HTML_FRAME = 1072", "HTML_FRAME = 1071"),
            (limits_in_c, HEADER, "HAZOMENY_MOST_COLUMNS = 6553,", ""),
            (constants, LIMITS, "PLAIN_PER_BYTE: usize = 67", "PLAIN_PER_BYTE: usize = 68"),
            (constants, LIMITS, "HTML_PER_BYTE: usize = 236", "HTML_PER_BYTE: usize = 235"),
        ]:
            with self.subTest(wrong):
                self.assertIn(was, source)
                self.assertNotEqual(found(source.replace(was, wrong, 1)), self.right)


class Prototypes(unittest.TestCase):
    def test_there_are_twelve(self):
        strict = ("check_strict", "html_body_strict", "html_document_strict")
        right = ("check", "layout", "plain", "print", "html_body", "html_document", "mask", "pair", "write", *strict)
        self.assertCountEqual([name for name, _, _ in entries()], [f"hazomeny_{each}" for each in right])

    def test_the_header(self):
        self.assertCountEqual(declared_in_c(HEADER), wanted(in_c))

    def test_the_crate(self):
        self.assertCountEqual(declared_in_rust(RUST), wanted(in_rust))

    def test_mistakes_are_found(self):
        """What a compiler and a linker let pass."""
        mistakes = [
            (declared_in_c, HEADER, in_c, "size_t length, size_t width", "size_t width, size_t length"),
            (declared_in_c, HEADER, in_c, "size_t length, uint8_t *page, size_t room", "size_t room, uint8_t *page, size_t length"),
            (declared_in_c, HEADER, in_c, "uint64_t hazomeny_check", "uint32_t hazomeny_check"),
            (declared_in_c, HEADER, in_c, "hazomeny_html_body_strict(const uint8_t *file", "hazomeny_html_body_strict(uint8_t *file"),
            (declared_in_c, HEADER, in_c, "size_t width);", "uint32_t width);"),
            (declared_in_c, HEADER, in_c, "uint32_t state[2], ", "uint32_t state[3], "),
            (declared_in_c, HEADER, in_c, "const uint8_t style[18]", "const uint8_t *style"),
            (declared_in_c, HEADER, in_c, "size_t mask_length, uint32_t place", "uint32_t mask_length, size_t place"),
            (declared_in_rust, RUST, in_rust, "length: usize, width: usize", "width: usize, length: usize"),
            (declared_in_rust, RUST, in_rust, "width: usize) -> u64;", "width: usize) -> u32;"),
            (declared_in_rust, RUST, in_rust, "pub fn hazomeny_check_strict(file: *const u8, length: usize)", "pub fn hazomeny_check_strict(file: *const u8)"),
            (declared_in_rust, RUST, in_rust, "style: *const [u8; 18]", "style: *const [u8; 17]"),
            (declared_in_rust, RUST, in_rust, "step: u8", "step: u32"),
            (declared_in_rust, RUST, in_rust, "place: u32", "place: usize"),
            (declared_in_rust, RUST, in_rust, "mask: *const u8,", "mask: *mut u8,"),
        ]
        for declared, source, right, was, wrong in mistakes:
            with self.subTest(wrong):
                self.assertIn(was, source)
                self.assertNotEqual(sorted(declared(source.replace(was, wrong, 1))), sorted(wanted(right)))


if __name__ == "__main__":
    unittest.main()
