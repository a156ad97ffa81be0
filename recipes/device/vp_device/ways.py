"""What jobs share."""
from __future__ import annotations

from typing import Any, List, NamedTuple, Optional

from . import tools
from .device import Device
from .pool import Pool
from .store import Store
from .storing import Storing


class Ways(NamedTuple):
    """What jobs share: where they are kept, what prints them, the printer, their words, bounds, the package, whether
    they are printed as they came, their language, and what keeps them elsewhere."""

    store: Store
    pool: Pool
    device: Device
    command: List[str]
    expands: bool
    bounds: Any
    package: Any
    as_it_came: bool = False
    language: Optional[str] = None
    storing: Optional[Storing] = None

    def words_of(self, language: str) -> List[str]:
        """The words that print a language."""
        return self.command or tools.words_of(language, self.as_it_came)
