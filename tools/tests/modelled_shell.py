#!/usr/bin/env python3
"""A shell and a node by the model of `tools/node_model.py`, for tests where nothing is built. Of updates they know those alone that insert
subjects with ids, without a context; of queries none. As a program it is the shell: `modelled_shell.py -- FOLDER`.
"""

from __future__ import annotations

import json
import pathlib
import re
import sys
import uuid

sys.dont_write_bytecode = True
sys.path.insert(0, str(pathlib.Path(__file__).resolve().parent.parent))
import node_model as model


def written(domain: str, value: object) -> str:
    """The written form of an object."""
    if isinstance(value, str):
        value = {"@value": value}
    assert isinstance(value, dict)
    if "@id" in value:
        assert value.keys() == {"@id"}
        return f"<{iri(domain, value['@id'])}>"
    lexical = value["@value"].replace("\\", "\\\\").replace('"', '\\"').replace("\n", "\\n").replace("\r", "\\r")
    if "@language" in value:
        return f'"{lexical}"@{value["@language"]}'
    return f'"{lexical}"^^<{value["@type"]}>' if "@type" in value else f'"{lexical}"'


def iri(domain: str, id: str) -> str:
    """What an id stands for: one without a colon stands behind the base of the domain."""
    return id if ":" in id else f"http://{domain}/{id}"


def inserted(domain: str, text: str) -> set[str]:
    """The triples that an update inserts; `ValueError` where it is another one."""
    update = json.loads(text)
    if update.keys() != {"@insert"}:
        raise ValueError("an update that the model doesn't know")
    triples = set()
    for subject in update["@insert"]:
        for key, values in subject.items():
            for value in values if key != "@id" else ():
                assert ":" in key and (not isinstance(value, str) or not value.startswith("?"))
                triple = f"<{iri(domain, subject['@id'])}> <{key}> {written(domain, value)} ."
                if model.read_triple(triple) != triple:
                    raise ValueError(triple)
                triples.add(triple)
    return triples


class Node(model.Node):
    """A node that knows such updates."""

    def answer(self, text: str) -> str:
        word, _, rest = text.partition(" ")
        if word == "update" and len(text.encode()) <= 1 << 20:
            try:
                self.updates = {rest: (set(), inserted(self.domain, rest))}
            except ValueError:
                return "bad line"
        return super().answer(text)


class Shell:
    """A shell over a folder."""

    def __init__(self, folder: pathlib.Path) -> None:
        self.paths, self.clone = [folder / "a.bank", folder / "b.bank"], None

    def mounted(self) -> model.Clone | None:
        """What the folder keeps; what is missing of it is made."""
        self.paths[0].parent.mkdir(exist_ok=True)
        for path in self.paths:
            path.touch()
        return model.mounted(model.Banks(*(path.read_bytes() for path in self.paths)))

    def reply(self, line: str) -> str:
        word, _, rest = line.partition(" ")
        if word in ("open", "create"):
            return self.begin(word, rest)
        if self.clone is None:
            return "closed"
        if line == "stop":
            self.clone = None
            return "stopped"
        node = Node(self.clone, self.clone.banks, self.clone.id, self.clone.domain, self.clone.props)
        return "bad line" if line in ("ask", "halt") else node.answer(line)

    def begin(self, word: str, rest: str) -> str:
        """`open` and `create`."""
        id, domain, *properties = (rest + " d" * (word == "open")).split(" ")
        if not re.fullmatch(r"[a-z0-9.-]{1,200}", domain):
            return "bad line"
        if self.clone is not None:
            return "live"
        kept = self.mounted()
        if word == "create" and kept is None:
            self.clone = model.genesis(model.Banks(), uuid.UUID(id).bytes, domain, [it[1:-1] for it in properties])
            return "created"
        self.clone = kept if word == "open" else None
        return "not empty" if word == "create" else "opened" if kept else "empty"

    def save(self) -> None:
        """Writes the files, as the device in memory has them."""
        for path, side in zip(self.paths, self.clone.banks.sides if self.clone else ()):
            path.write_bytes(side)


def main() -> int:
    shell, count = Shell(pathlib.Path(sys.argv[2])), 0
    for line in sys.stdin.buffer:
        count += len(line)
        if len(line) > (1 << 20) + 1 or count > 1 << 24:
            return 7
        reply = shell.reply(line.decode().removesuffix("\n"))
        shell.save()
        print(reply.removesuffix("\n"), flush=True)
    return 0


if __name__ == "__main__":
    sys.exit(main())
