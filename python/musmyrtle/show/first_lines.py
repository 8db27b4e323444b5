"""The forms of the first lines of outputs, by which a program of another version, or another program, is noticed."""
import re

NUMBER, CHANNEL = "[0-9]+", "[AB]"
OR_NONE = f"(?:{NUMBER}|-)"
FORMS = {
    "check": rf"params(?: {NUMBER}){{10}}",
    "plan": rf"(?:slot|dynamic|guard) {NUMBER} {CHANNEL} .*",
    "links": rf"{NUMBER} {OR_NONE} (?:static|dynamic) {NUMBER} {CHANNEL}(?: {OR_NONE}){{5}} [^ ]+",
    "record": rf"{NUMBER} {NUMBER} {OR_NONE} {OR_NONE} {CHANNEL} {OR_NONE} (?:offer|babble|corrupt) .*",
    "windows": rf"{NUMBER} {NUMBER} {OR_NONE} {NUMBER}(?: {OR_NONE}){{4}}",
    "commits": rf"(?:{NUMBER} ){{5}}x[0-9a-f]* = .*|(?:commit|sent|overwritten|withdrawn|pending) {NUMBER} .*",
    "origins": rf"{NUMBER} {NUMBER} {NUMBER} (?:commit|withdraw|read|pop)\b.*",
    "reasons": rf"(?:due|open|late|closed|effect|stopped) {NUMBER} .*",
    "received": rf"{NUMBER} {NUMBER} {NUMBER}(?: [^ ]+){{6}}",
    "outcome": "node 0",
}
PATTERNS = {command: re.compile(form) for command, form in FORMS.items()}
NEVER_EMPTY = ("check", "windows", "outcome")
"""The commands that print a line about each accepted input."""


def is_foreign(command: str, first: str | None) -> bool:
    """Returns whether an output isn't one of the command, by its first line, or None for an output without lines."""
    if first is None:
        return command in NEVER_EMPTY
    return command in PATTERNS and PATTERNS[command].fullmatch(first) is None
