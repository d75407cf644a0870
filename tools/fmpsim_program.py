"""Where the program fmpsim is."""
import os
import shutil
import sys
from typing import Optional


def program_at(path: Optional[str], refused: type) -> str:
    """The program: the one that is named, the one on the path, or the one beside the tool, by the name by which that was called.
    Where there is none, a `refused` is raised."""
    here = os.path.join(os.path.dirname(os.path.abspath(sys.argv[0])), "fmpsim")
    found = shutil.which(path or "fmpsim") or (None if path else shutil.which(here))
    if not found:
        raise refused(f"{path or 'fmpsim'}: there is no such program: name it with --fmpsim", status=3)
    return os.path.abspath(found)
