"""The files of a kit: for each application what a kernel's configure takes, and what tools/to-board --compare reads."""
import json
import re
import shutil
import zlib
from dataclasses import dataclass, field
from pathlib import Path

from board_case import Case
from board_machine import Class, Config, statement
from log_calls import COUNTS, SENSES, Refused

BOARD = Path(__file__).resolve().parent.parent / "board"
# What stands in each application as it stands in the folder board.
FILES = ("app.c", "board.c", "board.h", "board_app.h", "board.mk", "board_target.h", "board_target.cfg")
EXPECTED = "expected.json"
# What a call writes through a pointer: the variable, and the place of the pointer among the arguments where it is not the last.
VALUES = {"get_pri": "priority", "get_tid": "id", "iget_tid": "id", "get_pid": "id", "iget_pid": "id", "wai_flg": "pattern", "twai_flg": "pattern",
          "pol_flg": "pattern", "rcv_dtq": "data", "trcv_dtq": "data", "prcv_dtq": "data", "get_mpf": "at", "tget_mpf": "at", "pget_mpf": "at"}
PLACES = {"twai_flg": 3, "trcv_dtq": 1, "tget_mpf": 1}
CASTS = {"time": "BOARD_TIME({})", "timeout": "BOARD_TIMEOUT({})", "pattern": "(FLGPTN){}", "data": "(intptr_t){}", "mode": "(MODE){}", "priority": "(PRI){}"}


@dataclass
class Application:
    """A configuration with the cases that are played on it."""
    config: Config
    cases: list = field(default_factory=list)


def class_name(it: Class, kernel: str, many: int) -> str:
    """The kernel's own class of these processors."""
    if len(it.processors) == 1:
        return f"TCL_{it.initial}_ONLY" if kernel == "fmp1" else f"CLS_PRC{it.initial}"
    return f"TCL_{it.initial}" if kernel == "fmp1" else f"CLS_ALL_PRC{it.initial}"


def statement_for(kernel: str, kind: str, told: dict, number: int) -> str:
    """A statement as this kernel has it."""
    text = statement(kind, told, number, "BOARD_STACK", " * BOARD_TICK")
    if kernel == "fmp3":
        text = re.sub(r"\{(\w+), (\d+), (board_cyclic|board_alarm)", r"{\1, {TNFY_HANDLER, \2, \3}", text)
    return text


def static_api(config: Config, kernel: str) -> str:
    """The application's static API. The target's own comes last, so that no number of an object depends on it."""
    lines = ["/* Made by tools/to-board. */", '#include "board_app.h"']
    for kind, at, told in config.each():
        owner = class_name(config.class_of(told), kernel, config.processors)
        lines.append(f"CLASS({owner}) {{ {statement_for(kernel, kind, told, at)} }}")
    for processor in range(1, config.processors + 1):
        background = config.background(processor).replace("4096", "BOARD_STACK")
        lines.append(f"CLASS({class_name(Class(processor, [processor]), kernel, config.processors)}) {{ {background} }}")
    return "\n".join([*lines, 'INCLUDE("board_target.cfg");', ""])


def settings(application: Application, kernel: str, kit: int) -> str:
    """board_kernel.h: what the files in C have to know of the application and the kernel."""
    config, cases = application.config, application.cases
    pools = config.objects["mpf"]
    values = {
        "BOARD_FMP3": int(kernel == "fmp3"), "BOARD_KIT": kit, "BOARD_FIRST_CASE": cases[0].number, "BOARD_PROCESSORS": config.processors, "BOARD_MASTER": config.master,
        "BOARD_TICKS": int(any(case.ticks for case in cases)), "BOARD_MOST_STEPS": max(len(case.rows) for case in cases),
        "BOARD_POOLS": len(pools), "BOARD_BLOCKS": max([int(it["blkcnt"]) for it in pools], default=1),
    }
    lines = [f"#define {name} {value}" for name, value in values.items()]
    return "\n".join(["/* Made by tools/to-board. */", "#ifndef BOARD_KERNEL_H", "#define BOARD_KERNEL_H", *lines, "#endif", ""])


def table(cases: list) -> str:
    """board_case.h: the cases' steps."""
    out = ["/* Made by tools/to-board. */"]
    for case in cases:
        out += [f"/* {printable(case.name)} */", f"static const struct board_step steps_{case.number}[] = {{"]
        for row in case.rows:
            numbers = f"{row.processor}, {row.call}, {row.waits}, {row.block}, {{{listed(row.arguments)}}}, {{{listed(row.runs)}}}"
            out.append(f"    {{{numbers}}}, /* {printable(row.text)} */")
        out.append(f"    {{0, 0, 0, -1, {{0}}, {{{listed(case.last)}}}}},\n}};")
    out.append("static const struct board_case board_cases[] = {")
    out += [f"    {{{case.number}, {len(case.rows)}, steps_{case.number}}}," for case in cases]
    return "\n".join([*out, "};", ""])


def listed(numbers: list) -> str:
    """Numbers as C has them: the least of 32 bits has no literal of its own."""
    return ", ".join("(-2147483647 - 1)" if number == -2**31 else str(number) for number in numbers)


def printable(text: str) -> str:
    """As it may stand in a comment."""
    return re.sub(r"[^ -~]", "?", text).replace("*/", "* /").replace("/*", "/ *")


def calls_in_c(calls: dict) -> str:
    """board_calls.h: a case of C for each call."""
    lines = [f"    case {number}: {call_in_c(name, kinds)} break;" for number, (name, kinds) in enumerate(calls.items(), 1)]
    return "\n".join(["/* Made by tools/to-board of `fmpsim list`. */", *lines, ""])


def call_in_c(name: str, kinds: list) -> str:
    """A call with its arguments, and what of it is the code and the value."""
    if name == "rel_mpf":
        return "code = give_back(a[0], a[1]);"
    arguments = [CASTS.get(kind, "(ID){}").format(f"a[{at}]") for at, kind in enumerate(kinds)]
    if name in VALUES:
        arguments.insert(PLACES.get(name, len(arguments)), "&" + VALUES[name])
    call = f"{name}({', '.join(arguments)})"
    if name in SENSES:
        return f"*value = {call} ? 1 : 0;"
    if name in COUNTS:
        return f"code = (int_t){call}; if (code > 0) {{ *value = code; code = 0; }}"
    if name in VALUES:
        value = "handed_out(a[0], it->block, at)" if VALUES[name] == "at" else f"(intmax_t){VALUES[name]}"
        return f"code = (int_t){call}; if (code == 0) *value = {value};"
    return f"code = (int_t){call};"


def expected(application: Application, kernel: str) -> dict:
    """What --compare reads."""
    cases = [{"number": case.number, "name": case.name, "own": case.own, "expected": case.expected, "last": case.last} for case in application.cases]
    return {"kernel": kernel, "names": {str(number): name for number, name in application.config.runners().items()}, "cases": cases}


def write_application(folder: Path, application: Application, kernel: str, calls: dict, target) -> None:
    """One flat folder."""
    told = expected(application, kernel)
    made = {"app.cfg": static_api(application.config, kernel), "board_case.h": table(application.cases), "board_calls.h": calls_in_c(calls),
            "machine.cfg": application.config.augmented(), "board_cases.mk": f"BOARD_CASES = {' '.join(str(case.number) for case in application.cases)}\n"}
    told["kit"] = zlib.crc32(json.dumps([made, told], sort_keys=True).encode()) & 0x7fffffff
    made["board_kernel.h"] = settings(application, kernel, told["kit"])
    made[EXPECTED] = json.dumps(told) + "\n"
    try:
        folder.mkdir(parents=True)
        for path in [BOARD / name for name in FILES] + (sorted(it for it in Path(target).iterdir() if it.is_file()) if target else []):
            shutil.copyfile(path, folder / path.name)
        for name, text in made.items():
            (folder / name).write_text(text)
    except OSError as error:
        raise Refused(f"{error.filename}: cannot be written: {error.strerror}", status=3) from None


def write_kit(kit: str, applications: list, kernel: str, calls: dict, target) -> None:
    """A folder for each application. The cases have numbers of their own in the whole kit."""
    folder = Path(kit)
    if folder.exists() and (not folder.is_dir() or any(folder.iterdir())):
        raise Refused(f"{kit}: cannot be written: there is something already", status=3)
    number = 0
    for application in applications:
        for case in application.cases:
            number += 1
            case.number = number
    for at, application in enumerate(applications, 1):
        write_application(folder / f"app{at:03d}", application, kernel, calls, target)
