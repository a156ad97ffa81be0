"""What a user may choose where a stream is written anew."""
import datetime
from typing import NamedTuple, Optional, Tuple


class Options(NamedTuple):
    """The table of the sheet, the encoding of a receipt's text, a folder of stored things, the time of clocks, whether
    letters lose their marks, whether texts of labels keep their sizes, the words that name sheets."""
    table: str = 'cp858'
    encoding: Optional[str] = None
    store: Optional[str] = None
    now: Optional[datetime.datetime] = None
    nearest: bool = False
    keeps_sizes: bool = False
    sheet: Tuple[str, ...] = ()
