"""Builds the applications of a kit on the host, and plays their cases there."""
import os
import re
import subprocess
from pathlib import Path

HERE = Path(__file__).resolve().parent
TOP = HERE.parent.parent
TOOL = TOP / "tools/to-board"
TARGET = HERE / "host"
# A busy machine takes long.
SECONDS = 3600


class Host:
    """The host, built for one test. What goes wrong is told to `check`."""

    def __init__(self, fmpsim: str, out: Path, check) -> None:
        self.fmpsim, self.out, self.check = fmpsim, out, check
        self.library = out / "host/libfmphost.a"

    def build(self) -> None:
        # not optimized: what it does takes less time than to build it so
        told = self.make("-C", str(TOP / "host"), f"OUT={self.library.parent}", f"fmphost_own=-I{TOP / 'include'} -O0 -fvisibility=hidden")
        self.check(told.returncode == 0, "make of the host", told.stderr)

    def make(self, *words: str, folder=None):
        return subprocess.run(["make", "-s", "CC=gcc", f"FMPSIM={self.fmpsim}", *words], capture_output=True, text=True, cwd=folder)

    def tool(self, *words, fmpsim=None):
        """tools/to-board on these words."""
        own = dict(os.environ, FMPSIM=fmpsim or self.fmpsim)
        return subprocess.run([str(TOOL), *map(str, words)], capture_output=True, text=True, env=own, timeout=SECONDS)

    def kit(self, name: str, *words) -> Path:
        """A kit for the host, with its programs."""
        kit = self.out / name
        told = self.tool("--target", TARGET, "-o", kit, *words)
        self.check(told.returncode == 0, f"tools/to-board of {name}", told.stderr)
        for folder in sorted(kit.glob("app*")):
            made = self.make("-f", "host.mk", f"HOST={TOP / 'host'}", f"FMPHOST_LIBRARY={self.library}", "fmphost", folder=folder)
            self.check(made.returncode == 0 and "warning" not in made.stderr, f"make of {folder.name} of {name}", made.stderr[-2000:])
        return kit

    def play(self, folder: Path, number: int, seed: int, *words, fmpsim=None, wrong="") -> str:
        """The log of one case, as the host writes it with this seed."""
        own = dict(os.environ, BOARD_NUMBER=str(number), FMPSIM=self.fmpsim, WRONG=wrong)
        run = [str(folder / "fmphost-out/run"), "--fmpsim", fmpsim or self.fmpsim, "--seeds", str(seed), "--ticks", "0", "--turns", "32000", "--races", "none", "--no-points",
               "--refused", "none", *words]
        try:
            told = subprocess.run(run, capture_output=True, text=True, env=own, cwd=folder, timeout=SECONDS, errors="replace")
        except subprocess.TimeoutExpired:
            return f"it did not end within {SECONDS} s"
        return first_log(told.stderr) or told.stderr

    def play_all(self, kit: Path, seed: int, *words) -> Path:
        """Each case of a kit, into one file of logs for each application."""
        logs = kit.parent / f"{kit.name}-logs-{seed}"
        logs.mkdir()
        for folder in sorted(kit.glob("app*")):
            numbers = (folder / "board_cases.mk").read_text().split("=")[1].split()
            (logs / f"{folder.name}.log").write_text("".join(self.play(folder, int(number), seed, *words) for number in numbers))
        return logs


def first_log(text: str) -> str:
    """The first whole log. The host plays a run again to look whether it is the same."""
    found = re.search(r"^board: case .*?^board: end of case [^\n]*\n", text, re.M | re.S)
    return found[0] if found else ""
