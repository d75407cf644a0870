"""What a TOPPERS project sets beside its statements: the kernel's macros, as they stand behind all files, and names that nobody defines."""
import re

from c_numbers import Expression, Refused, Token, joined, quoted

# A file of cpp's text in which the macros' values stand, and the lines of it: each has a word of its own, and what its macro is then.
PROBE = "@settings"
MACROS = ("TNUM_PRCID", "TOPPERS_SYSTIM_GLOBAL", "TOPPERS_SYSTIM_PRCID", "TMAX_TPRI", "TMAX_WUPCNT", "TMAX_ACTCNT")
ASKED = re.compile(rb"[ \t]*#[ \t]*(?:ifdef[ \t]+(?P<name>[A-Za-z_]\w*)|(?:el)?if\b(?P<expression>[^\n]*))")
DEFINED = re.compile(rb"(?<![!\w])[ \t]*defined[ \t]*(?:\([ \t]*([A-Za-z_]\w*)[ \t]*\)|([A-Za-z_]\w*))")
NOT_DEFINED = re.compile(rb"![ \t]*defined[ \t]*(?:\([ \t]*\w+[ \t]*\)|\w+)")


def asked_in(directive):
    """The names for which a directive keeps what stands behind it, if they are defined."""
    found = ASKED.match(directive)
    if not found:
        return []
    if found["name"]:
        return [found["name"].decode("latin-1")]
    return [(one or other).decode("latin-1") for one, other in DEFINED.findall(NOT_DEFINED.sub(b"", found["expression"]))]


def probe(asked):
    """The lines that cpp gets behind all files, for the kernel's macros and for the names that directives ask for."""
    lines = [f'#line 1 "{PROBE}"']
    for name in (*MACROS, *dict.fromkeys(name for name, _ in asked)):
        lines += [f"#ifdef {name}", f"fmpsim_value_of_{name} {name}" if name in MACROS else f"fmpsim_value_of_{name}", "#endif"]
    return ("\n".join(lines) + "\n").encode("latin-1")


class Settings:
    """The macros that the files define, by their names: the tokens of each."""

    def __init__(self, tokens, asked, tell):
        self.tell, self.values = tell, {}
        for token in tokens:
            if token.word.startswith("fmpsim_value_of_"):
                name = token.word.removeprefix("fmpsim_value_of_")
                self.values[name] = []
            else:
                self.values[name].append(token)
        for name, place in asked:
            if name not in self.values:
                tell(place, f"note: nobody defines {quoted(name)}, so what stands here for it is left out: -D {name} if your build defines it")

    def number(self, name, constants, low, high):
        """The number that a macro stands for, or none where it is not defined."""
        tokens = self.values.get(name)
        if not tokens:
            return None
        try:
            value = Expression(tokens, constants).value()
        except Refused as why:
            raise Refused(None, f"{name} is {quoted(joined(tokens))}: {why}") from why
        if not low <= value <= high:
            raise Refused(None, f"{name} is {value} here, and may be {low} to {high}")
        return value

    def processors(self, constants, given):
        """How many processors there are, by --processors and by TNUM_PRCID, which have to say the same."""
        many = self.number("TNUM_PRCID", constants, 1, 8)
        if given and many is not None and many != given:
            raise Refused(None, f"TNUM_PRCID is {many} here, and --processors says {given}")
        return many or given

    def master(self, constants):
        """The processor whose timer counts for all, or none."""
        if "TOPPERS_SYSTIM_GLOBAL" not in self.values:
            return None
        master = self.number("TOPPERS_SYSTIM_PRCID", constants, 1, 8)
        if master is None:
            self.tell(None, "note: TOPPERS_SYSTIM_GLOBAL is defined, and TOPPERS_SYSTIM_PRCID is not: the timer of processor 1 is taken to count for all")
        return master or 1

    def limits(self, constants):
        """The greatest number of queued wakeups and the lowest priority, or none where both are the profile's own."""
        wakeups, priority = self.number("TMAX_WUPCNT", constants, 1, 2**32 - 1), self.number("TMAX_TPRI", constants, 1, 32)
        activations = self.number("TMAX_ACTCNT", constants, 0, 2**32 - 1)
        if activations is not None and activations != 1:
            self.tell(None, f"note: TMAX_ACTCNT is {activations}, and 1 is taken, since the profile queues one activation: that can change what act_tsk answers")
        if wakeups is not None and wakeups > 255:
            self.tell(None, f"lowered: TMAX_WUPCNT from {wakeups} to 255, the greatest here, which can change an answer: wup_tsk answers E_QOVR from there on")
            wakeups = 255
        if priority is not None and priority < 16:
            self.tell(None, f"note: TMAX_TPRI is {priority}, and 16 is taken, the least here: that can change what chg_pri answers")
            priority = 16
        found = (wakeups or 1, priority or 16)
        return None if found == (1, 16) else found


# The interrupts of these are ticks and requests between processors, which are events of their own.
OF_THE_KERNEL = re.compile(r"timer|_hrt_|ipi|_inthdr_prc", re.I)


class Device:
    """A statement that installs an interrupt handler: its name as an alarm, and its function."""

    def __init__(self, first, arguments, fields):
        name, self.first, self.number = first.word, first, joined(arguments[0])
        places = {"DEF_INH": (1, 2, None), "ATT_ISR": (3, 5, 1), "CRE_ISR": (3, 5, 1)}
        at, self.count, exinf = places[name]
        self.is_whole = fields is not None and len(fields) == self.count and all(fields)
        if not self.is_whole:
            return
        self.function = [it for it in fields[at] if it.word not in ("(", ")", "&", "INTHDR", "ISR")]
        self.exinf = fields[exinf] if exinf else [Token("0", None, 0)]
        self.shown = f"{name}({self.number + ', ' if name != 'ATT_ISR' else ''}..)"
        self.is_kernels = bool(OF_THE_KERNEL.search(joined(self.function)) or name == "DEF_INH" and OF_THE_KERNEL.search(self.number))
        self.name = arguments[0][0].word if name == "CRE_ISR" else f"{name[4:]}_{joined(self.function)}"
