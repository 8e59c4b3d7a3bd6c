"""A call of a command: the values that come of it."""
from __future__ import annotations

import json
from typing import Any

from .faults import KINDS
from .library import library


def reply(*words: object, data: bytes = b"") -> dict[str, Any]:
    """What docs/ANSWERS.md says of the status Done; an exception where there is another one."""
    code, output = library().run_json(map(str, words), data)
    answer: dict[str, Any] = json.loads(output)
    if code:
        raise KINDS[code]._of(answer)
    return answer


def finding(*words: object) -> dict[str, Any]:
    """What is found, by its name."""
    found: dict[str, Any] = reply(*words)["finding"]
    return found
