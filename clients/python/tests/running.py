"""Built nodes that run while a test does."""

from __future__ import annotations

import pathlib
import socket
import subprocess
import time
from typing import Any

import places
import mld_client as mld

PATIENCE = 60.0


def free_address() -> str:
    """An address of this machine at which nobody listens."""
    with socket.create_server(("127.0.0.1", 0)) as it:
        return "127.0.0.1:{}".format(it.getsockname()[1])


class RunningNode:
    """A built node of the domain `d` over a folder, with the id that ends with a number."""

    def __init__(self, folder: pathlib.Path, number: int, *words: str, role: str = "genesis") -> None:
        self.folder, self.address = folder, free_address()
        self.words = [str(places.built("mld_node")), "--id", f"00000000-0000-4000-8000-{number:012}", "--domain", "d", "--role", role]
        self.words += ["--dir", str(folder), "--listen", self.address, *words]
        self.start()

    def __enter__(self) -> RunningNode:
        return self

    def __exit__(self, *_: object) -> None:
        self.kill()

    def start(self) -> None:
        self.process = subprocess.Popen(self.words, stdin=subprocess.DEVNULL)

    def kill(self) -> None:
        self.process.kill()
        self.process.wait()

    def client(self) -> mld.Client:
        """A client, once the node listens."""
        return until_done(lambda: mld.Client(self.address, PATIENCE), mld.Lost)


def until_done(do: Any, *faults: type[BaseException]) -> Any:
    """What a call gives, which is tried again behind some faults, for a minute at most."""
    until = time.monotonic() + PATIENCE
    while True:
        try:
            return do()
        except faults:
            if time.monotonic() > until:
                raise
            time.sleep(0.05)
