"""Volumes of random requests, made by the program `udfburn`, beside the model of what they hold."""

from __future__ import annotations

import random
import subprocess
from typing import Iterable, List, Tuple

from udfburn.protocol import Create, MakeDir, Message, Path, Remove, Rename, Replace, encode_message, frame
from udfburn.protocol.units import Moment

from .model import Directory, File, Volume
from .programs import UDFBURN

NAMES = ["a", "b.txt", "Grüße", "日本", "x" * 200, "long name with spaces.dat", "ż" * 60, "n" * 254]
SIZES = [0, 1, 5, 100, 1871, 1872, 1873, 2047, 2048, 2049, 6000, 40_000]


def format_image(image: str, label: str = "TEST", moment: int = 0, capacity: int = 60_000) -> None:
    """Makes a volume."""
    subprocess.run([UDFBURN, "format", image, label, str(moment), str(capacity)], check=True, stdout=subprocess.DEVNULL)


def apply_messages(image: str, messages: Iterable[Message]) -> None:
    """Sends requests to an image."""
    stream = b"".join(frame(encode_message(message)) for message in messages)
    subprocess.run([UDFBURN, "apply", image], input=stream, check=True, stdout=subprocess.DEVNULL)


class Writer:
    """Random requests of some clients, one after another, done on a model."""

    def __init__(self, seed: int, clients: int = 3):
        self.chance = random.Random(seed)
        self.model = Volume()
        self.latest = {client: 0 for client in range(1, clients + 1)}
        self.moment = 1_000_000

    def request(self) -> Message:
        """The next one, done on the model."""
        client = self.chance.choice(list(self.latest))
        self.latest[client] += 1
        self.moment += self.chance.randrange(1, 10**12)
        message = self._message(client, self.latest[client], self.moment)
        self.model.answer(message)
        return message

    def requests(self, count: int) -> List[Message]:
        """So many."""
        return [self.request() for _ in range(count)]

    def _message(self, client: int, number: int, moment: int) -> Message:
        draw = self.chance.random()
        if draw < 0.45:
            return Create(client, number, Moment(moment), self._new(), self.chance.randbytes(self.chance.choice(SIZES)))
        if draw < 0.6:
            return MakeDir(client, number, Moment(moment), self._new())
        if draw < 0.75:
            return Replace(client, number, Moment(moment), self._known(), self.chance.randbytes(self.chance.choice(SIZES)))
        if draw < 0.88:
            return Rename(client, number, Moment(moment), self._known(), self._new())
        return Remove(client, number, Moment(moment), self._known())

    def _known(self) -> Path:
        return self.chance.choice(list(self.model.nodes))

    def _new(self) -> Path:
        parents = [path for path, node in self.model.nodes.items() if isinstance(node, Directory)]
        name = self.chance.choice(NAMES) if self.chance.random() < 0.5 else f"file{self.chance.randrange(10_000)}"
        return self.chance.choice(parents) + (name,)


def random_volume(image: str, seed: int, count: int, clients: int = 3) -> Tuple[Volume, Writer]:
    """Formats an image and fills it by so many random requests."""
    format_image(image)
    writer = Writer(seed, clients)
    apply_messages(image, writer.requests(count))
    return writer.model, writer


__all__ = ["Directory", "File", "Volume", "Writer", "apply_messages", "format_image", "random_volume"]
