"""The data of a site in shards: scripts that a page loads when it is asked for a package of theirs.

A page that is opened from disk may load scripts, and nothing else. So a record is a call, `site.put(KIND, NUMBER, KEY, VALUE)`;
records come in any order, and are written out when many wait. No report is kept.
"""
import json
import os
from typing import Any, Iterable

WAITING = 8 << 20    # characters that wait before they are written


def script_text(value: Any) -> str:
    """A value as a script has it, in ASCII alone."""
    return json.dumps(value, separators=(",", ":"))


class Shards:
    """Scripts FOLDER/KIND/0.js, 1.js, ..: each has the records of `share` numbers."""

    def __init__(self, folder: str, kind: str, share: int) -> None:
        self.folder, self.kind, self.share = os.path.join(folder, kind), kind, share
        self.waiting: dict[int, list[str]] = {}
        self.size = 0
        os.makedirs(self.folder)

    def put(self, number: int, key: str, value: str) -> None:
        """Adds a record; its value is the text of a script."""
        text = f'site.put("{self.kind}",{number},"{key}",{value})\n'
        self.waiting.setdefault(number // self.share, []).append(text)
        self.size += len(text)
        if self.size > WAITING:
            self.write()

    def write(self) -> None:
        for shard, texts in self.waiting.items():
            with open(os.path.join(self.folder, f"{shard}.js"), "a", encoding="ascii") as file:
                file.writelines(texts)
        self.waiting.clear()
        self.size = 0


class Names:
    """Names that are numbered from 0; pages load all of them, and everything else speaks of their numbers."""

    def __init__(self, names: Iterable[str]) -> None:
        self.names = list(names)
        self.texts = {name: str(number) for number, name in enumerate(self.names)}

    def __len__(self) -> int:
        return len(self.names)

    def number(self, name: str) -> int:
        return int(self.texts[name])

    def list_text(self, names: Iterable[str]) -> str:
        """The numbers of some names as a script has them: the lists of an archive have millions."""
        return f"[{','.join(map(self.texts.__getitem__, names))}]"

    def write(self, folder: str, kind: str, share: int) -> None:
        with open(os.path.join(folder, f"{kind}.js"), "w", encoding="ascii") as file:
            file.write(f'site.names("{kind}",{share},{script_text(chr(10).join(self.names))})\n')
