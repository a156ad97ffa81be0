#!/usr/bin/env python3
"""rt try, without the check that it starts beside it only to warn of reserved names, which takes as long as the try
itself: for crates that are proved."""
import sys

sys.dont_write_bytecode = True
from gate import kit  # noqa: E402

rt = kit()
rt.rtlib.RATTLE = "true"
sys.exit(rt.main(["try", *sys.argv[1:]]))
