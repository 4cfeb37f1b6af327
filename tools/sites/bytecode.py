"""Where Python keeps the bytecode of these tools: below the user's cache, and never beside them."""
from __future__ import annotations

import os
import sys


def keep() -> None:
    """Has bytecode kept below ~/.cache/lentsheep, if that folder is the user's own; else it is not kept."""
    home = os.environ.get("XDG_CACHE_HOME") or (os.environ["HOME"] + "/.cache" if os.environ.get("HOME") else "")
    folder = f"{home}/lentsheep"
    try:
        os.makedirs(folder, exist_ok=True)
        # bytecode that another user may write is not run
        status = os.stat(folder)
        is_own = bool(home) and status.st_uid == os.geteuid() and not status.st_mode & 0o022
    except OSError:
        is_own = False
    sys.dont_write_bytecode = not is_own
    if is_own:
        sys.pycache_prefix = f"{folder}/bytecode"
