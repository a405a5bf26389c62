"""The rows of docs/CONTRACTS.md: a function's name, what it requires and what it ensures, as the table says them."""

import re

ROW = re.compile(r"^\| `([\w:]+)` \| (.*?) \| (.*?) \|(?= )", re.MULTILINE)


def rows(text):
    return [(name, said(requires), said(ensures)) for name, requires, ensures in ROW.findall(text)]


def said(cell):
    """A bar stands escaped in a cell, which it would end."""
    return " ".join(cell.strip("`").replace(r"\|", "|").split())


def written(text, contracts):
    """The text with what the functions require and ensure in the rows that they have."""

    def row(found):
        if found[1] not in contracts:
            return found[0]
        contract = contracts[found[1]]
        return f"| `{found[1]}` | {cell(contract.requires)} | {cell(contract.ensures)} |"

    return ROW.sub(row, text)


def cell(clauses):
    return clauses if clauses == "–" else f"`{clauses}`".replace("|", r"\|")
