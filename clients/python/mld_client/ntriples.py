"""Triples as values, and their lines: W3C N-Triples 1.1 (https://www.w3.org/TR/n-triples/), and what of it a clone takes.

`read_line` reads a line by the whole grammar, with blank nodes, comments and all escapes, and tells where and why a line is none. `refusal`
says why a clone doesn't take a triple that is one (`docs/FORMATS.md`, "Triples"). `written` gives the written form of a term: the canonical
form of N-Triples 1.1, in which a clone shows it.
"""

from __future__ import annotations

import dataclasses
import re
from typing import Optional, Union

IRI_LIMIT = 2048
LEXICAL_LIMIT = 1 << 20
XSD_STRING = "http://www.w3.org/2001/XMLSchema#string"
LANG_STRING = "http://www.w3.org/1999/02/22-rdf-syntax-ns#langString"


@dataclasses.dataclass(frozen=True)
class Iri:
    """An IRI."""

    text: str


@dataclasses.dataclass(frozen=True)
class Blank:
    """A blank node, by its label within a document."""

    label: str


@dataclasses.dataclass(frozen=True)
class Literal:
    """A literal: its lexical form, its datatype, and its language tag in lower case where it has one."""

    lexical: str
    datatype: str = XSD_STRING
    language: Optional[str] = None


Subject = Union[Iri, Blank]
Term = Union[Iri, Blank, Literal]


@dataclasses.dataclass(frozen=True)
class Triple:
    """A triple of a document."""

    subject: Subject
    predicate: Iri
    object: Term


class NoTriple(ValueError):
    """A line is no line of N-Triples: the column, from 1 on, counted in characters, and why."""

    def __init__(self, column: int, why: str) -> None:
        super().__init__(f"column {column}: {why}")
        self.column, self.why = column, why


# ---- The grammar, by its rules' names in section 7 of the recommendation.

UCHAR = r"\\u[0-9A-Fa-f]{4}|\\U[0-9A-Fa-f]{8}"
IRI_PLAIN = r'[^\x00-\x20<>"{}|^`\\]*'
IRIREF = rf"<({IRI_PLAIN}(?:(?:{UCHAR}){IRI_PLAIN})*)>"
STRING_PLAIN = r'[^"\\\n\r]*'
STRING_LITERAL_QUOTE = rf'"({STRING_PLAIN}(?:(?:\\[tbnrf"\'\\]|{UCHAR}){STRING_PLAIN})*)"'
LANGTAG = r"@([a-zA-Z]+(?:-[a-zA-Z0-9]+)*)"
PN_CHARS_BASE = (
    "A-Za-z\u00c0-\u00d6\u00d8-\u00f6\u00f8-\u02ff\u0370-\u037d\u037f-\u1fff\u200c-\u200d\u2070-\u218f\u2c00-\u2fef"
    "\u3001-\ud7ff\uf900-\ufdcf\ufdf0-\ufffd\U00010000-\U000effff"
)
PN_CHARS_U = PN_CHARS_BASE + "_:"
PN_CHARS = PN_CHARS_U + "\\-0-9\u00b7\u0300-\u036f\u203f-\u2040"
BLANK_NODE_LABEL = rf"_:([{PN_CHARS_U}0-9](?:[{PN_CHARS}.]*[{PN_CHARS}])?)"
WS = r"[ \t]*"

TRIPLE = re.compile(
    rf"{WS}(?:{IRIREF}|{BLANK_NODE_LABEL}){WS}{IRIREF}{WS}"
    rf"(?:{IRIREF}|{BLANK_NODE_LABEL}|{STRING_LITERAL_QUOTE}(?:{LANGTAG}|\^\^{IRIREF})?){WS}\.{WS}(?:#.*)?",
    re.DOTALL,
)
NOTHING = re.compile(rf"{WS}(?:#.*)?", re.DOTALL)
ESCAPE = re.compile(rf"{UCHAR}|\\.")
LETTERS = {"t": "\t", "b": "\b", "n": "\n", "r": "\r", "f": "\f", '"': '"', "'": "'", "\\": "\\"}


class NoCharacter(ValueError):
    """An escape names no Unicode scalar value."""


def character(escape: re.Match[str]) -> str:
    """The character that an escape names."""
    code = escape[0][1:]
    if code[0] not in "uU":
        return LETTERS[code]
    number = int(code[1:], 16)
    if number > 0x10FFFF or 0xD800 <= number < 0xE000:
        raise NoCharacter(escape[0])
    return chr(number)


def unescaped(text: str) -> str:
    """What a text stands for whose escapes are those of the grammar."""
    return ESCAPE.sub(character, text) if "\\" in text else text


def read_line(line: str) -> Optional[Triple]:
    """The triple of a line, which has no line end; None where it has a comment or blanks alone. Raises `NoTriple`."""
    match = TRIPLE.fullmatch(line)
    if match is None:
        if NOTHING.fullmatch(line):
            return None
        raise found_fault(line)
    subject, subject_label, predicate, object_, object_label, lexical, tag, datatype = match.groups()
    try:
        made: Term
        if lexical is not None:
            made = literal(unescaped(lexical), tag, datatype if datatype is None else unescaped(datatype))
        else:
            made = Blank(object_label) if object_ is None else Iri(unescaped(object_))
        return Triple(Blank(subject_label) if subject is None else Iri(unescaped(subject)), Iri(unescaped(predicate)), made)
    except NoCharacter as fault:
        place = next(match.start() for match in ESCAPE.finditer(line) if match[0] == str(fault))
        raise NoTriple(place + 1, f"{fault} names no character") from None


def literal(lexical: str, tag: Optional[str], datatype: Optional[str]) -> Literal:
    """A literal as it is spelled."""
    if tag is not None:
        return Literal(lexical, LANG_STRING, tag.lower())
    return Literal(lexical, XSD_STRING if datatype is None else datatype)


# ---- Where and why a line is none.

TOKENS = (
    ("an IRI", re.compile(IRIREF)),
    ("a blank node", re.compile(BLANK_NODE_LABEL)),
    ("a literal", re.compile(STRING_LITERAL_QUOTE)),
)
PLACES = (("the subject", TOKENS[:2]), ("the predicate", TOKENS[:1]), ("the object", TOKENS))


def found_fault(line: str) -> NoTriple:
    """Why a line isn't in the grammar: the first place at which it can't go on as it should."""
    at = 0
    for place, tokens in PLACES:
        at = re.compile(WS).match(line, at).end()  # type: ignore[union-attr]
        match = next(filter(None, (form.match(line, at) for _, form in tokens)), None)
        if match is None:
            return unread(line, at, place, tokens)
        start, at = at, match.end()
        if line[start] == '"':
            behind = re.compile(rf"{LANGTAG}|\^\^{IRIREF}").match(line, at)
            if behind is None and line[at : at + 1] == "@":
                return NoTriple(at + 1, "no language tag: letters, and then groups of letters and digits, each behind a `-`")
            if behind is None and line[at : at + 2] == "^^":
                return unread(line, at + 2, "the datatype", TOKENS[:1])
            at = behind.end() if behind else at
    at = re.compile(WS).match(line, at).end()  # type: ignore[union-attr]
    if line[at : at + 1] != ".":
        return NoTriple(at + 1, "a dot is wanted behind the object")
    return NoTriple(at + 2, "behind the dot stands more than a comment")


def unread(line: str, at: int, place: str, tokens: tuple[tuple[str, re.Pattern[str]], ...]) -> NoTriple:
    """Why no term that may stand at a place begins there."""
    first = line[at : at + 1]
    names = [name for name, _ in tokens]
    wanted = names[0] if len(names) == 1 else ", ".join(names[:-1]) + " or " + names[-1]
    if first == "<":
        return inside(line, at, place + " isn't closed by `>`", IRI_PLAIN, ">", UCHAR, "an IRI")
    if first == '"' and len(tokens) == 3:
        return inside(line, at, place + " isn't closed by a quote", STRING_PLAIN, '"', rf"\\[tbnrf\"'\\]|{UCHAR}", "a literal")
    if line.startswith("_:", at) and len(tokens) > 1:
        return NoTriple(at + 1, "no label of a blank node")
    return NoTriple(at + 1, f"{wanted} is wanted as {place}")


def inside(line: str, at: int, unclosed: str, plain: str, end: str, escapes: str, what: str) -> NoTriple:
    """Why an IRI or a literal that begins at a place doesn't end."""
    at = re.compile(rf".{plain}(?:(?:{escapes}){plain})*", re.DOTALL).match(line, at).end()  # type: ignore[union-attr]
    if at == len(line):
        return NoTriple(at + 1, unclosed)
    if line[at] == "\\":
        return NoTriple(at + 1, f"no escape of {what}: {line[at : at + 2]}")
    return NoTriple(at + 1, f"U+{ord(line[at]):04X} may not stand in {what}")


# ---- What a clone takes.

ABSOLUTE = re.compile(r"[A-Za-z][A-Za-z0-9+.-]*:")
BARRED = re.compile(r'[\x00-\x20<>"{}|^`\\]')


def iri_refusal(text: str) -> Optional[str]:
    """Why a clone doesn't take an IRI; None where it does."""
    if not ABSOLUTE.match(text):
        return f"the IRI isn't absolute: <{text[:80]}>"
    barred = BARRED.search(text)
    if barred:
        return f"U+{ord(barred[0]):04X} may not stand in an IRI, also where an escape names it"
    size = len(text.encode())
    return f"an IRI of {size} bytes, of {IRI_LIMIT} at most" if size > IRI_LIMIT else None


def refusal(triple: Triple) -> Optional[str]:
    """Why a clone doesn't take a triple, blank nodes aside; None where it does."""
    for term in (triple.subject, triple.predicate, triple.object):
        why = iri_refusal(term.text) if isinstance(term, Iri) else None
        if isinstance(term, Literal):
            size = len(term.lexical.encode())
            if size > LEXICAL_LIMIT:
                return f"a literal of {size} bytes, of {LEXICAL_LIMIT} at most"
            if term.language is None:
                why = iri_refusal(term.datatype)
                if term.datatype == LANG_STRING:
                    return "rdf:langString may not be named as a datatype: a literal of it has a language tag"
        if why:
            return why
    return None


ESCAPED = re.compile(r'["\\\n\r]')
ESCAPES = {'"': '\\"', "\\": "\\\\", "\n": "\\n", "\r": "\\r"}


def written(term: Term) -> str:
    """The written form of a term."""
    if isinstance(term, Iri):
        return f"<{term.text}>"
    if isinstance(term, Blank):
        return f"_:{term.label}"
    quoted = '"' + ESCAPED.sub(lambda match: ESCAPES[match[0]], term.lexical) + '"'
    if term.language is not None:
        return f"{quoted}@{term.language}"
    return quoted if term.datatype == XSD_STRING else f"{quoted}^^<{term.datatype}>"


def written_triple(triple: Triple) -> str:
    """The written form of a triple, dot included, without a line end."""
    return f"{written(triple.subject)} {written(triple.predicate)} {written(triple.object)} ."
