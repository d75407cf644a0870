"""What stands in the log of a TOPPERS/FMP kernel: calls with their arguments, codes, and the objects of a configuration.

tools/from-log reads logs by these tables, and tools/to-log writes them; tools/to-perfetto reads configurations by them.
"""
import re

OBJECTS = {"task": "TSK", "semaphore": "SEM", "eventflag": "FLG", "dataqueue": "DTQ", "pool": "MPF", "cyclic": "CYC", "alarm": "ALM", "spinlock": "SPN"}
# The kinds of the arguments, and the calls that have them.
CALLS = {name: kinds.split() for kinds, names in {
    "task": "act_tsk iact_tsk can_act ter_tsk get_pri wup_tsk iwup_tsk can_wup rel_wai irel_wai sus_tsk rsm_tsk",
    "task number": "mact_tsk imact_tsk mig_tsk chg_pri",
    "number": "tslp_tsk dly_tsk rot_rdq irot_rdq",
    "number number": "mrot_rdq imrot_rdq",
    "": "ext_tsk slp_tsk get_tid iget_tid get_pid iget_pid loc_cpu iloc_cpu unl_cpu iunl_cpu dis_dsp ena_dsp sns_ctx sns_loc sns_dsp sns_dpn",
    "semaphore": "sig_sem isig_sem wai_sem pol_sem",
    "semaphore number": "twai_sem",
    "eventflag pattern": "set_flg iset_flg clr_flg",
    "eventflag pattern mode": "wai_flg pol_flg",
    "eventflag pattern mode number": "twai_flg",
    "dataqueue data": "snd_dtq psnd_dtq ipsnd_dtq fsnd_dtq ifsnd_dtq",
    "dataqueue data number": "tsnd_dtq",
    "dataqueue": "rcv_dtq prcv_dtq",
    "dataqueue number": "trcv_dtq",
    "pool": "get_mpf pget_mpf",
    "pool number": "tget_mpf",
    "pool block": "rel_mpf",
    "cyclic": "sta_cyc stp_cyc",
    "cyclic number": "msta_cyc",
    "alarm number": "sta_alm ista_alm",
    "alarm number number": "msta_alm imsta_alm",
    "alarm": "stp_alm istp_alm",
    "spinlock": "loc_spn iloc_spn try_spn itry_spn unl_spn iunl_spn",
}.items() for name in names.split()}
MAY_WAIT = set("slp_tsk tslp_tsk dly_tsk wai_sem twai_sem wai_flg twai_flg snd_dtq tsnd_dtq rcv_dtq trcv_dtq get_mpf tget_mpf".split())
SPINS = {"loc_spn", "iloc_spn"}
# What answers a value: as the code itself where it is not below 0, or after the code.
COUNTS = set("can_act can_wup".split())
SENSES = set("sns_ctx sns_loc sns_dsp sns_dpn".split())
VALUED = set("get_pri get_tid iget_tid get_pid iget_pid wai_flg twai_flg pol_flg rcv_dtq trcv_dtq prcv_dtq".split())
BLOCKS = set("get_mpf tget_mpf pget_mpf".split())
CODES = {0: "E_OK", -17: "E_PAR", -18: "E_ID", -25: "E_CTX", -28: "E_ILUSE", -41: "E_OBJ", -43: "E_QOVR", -49: "E_RLWAI", -50: "E_TMOUT"}
MODES = {1: "TWF_ORW", 2: "TWF_ANDW"}
RANGES = {"pattern": (0, 2**32 - 1), "data": (-2**63, 2**63 - 1)}
STATEMENT = re.compile(r"//[^\n]*|/\*.*?\*/|\"(?:[^\"\\]|\\.)*\"|\b(PROCESSORS|DEF_CLASS|CLASS|CRE_[A-Z]{3})\s*\(\s*(\w+)(?:\s*,\s*\{?\s*([^,{}();]*))?", re.S | re.A)


class Refused(Exception):
    """What is wrong, with its place, and the status that the program ends with."""

    def __init__(self, what, line=0, status=1):
        super().__init__(what)
        self.line, self.status = line, status


class Ends(Exception):
    """Why a log cannot be followed on, and from which line: what stands before it can be judged."""

    def __init__(self, what, line):
        super().__init__(what)
        self.line = line


def printable(text):
    text = "".join(it if " " <= it <= "~" else "?" for it in text)
    return text if len(text) <= 80 else text[:80] + ".."


def whole(word):
    """A decimal or hexadecimal number, or nothing."""
    found = re.fullmatch(r"-?(?:0|[1-9]\d{0,19})|0[xX][0-9a-fA-F]{1,16}", word, re.A)
    return found and int(word, 0)


def plain(name):
    """A call's name without the `i` of the calls of handlers."""
    return name[1:] if name[0] == "i" and name[1:] in CALLS else name


class Machine:
    """The processors of a configuration, the names of its objects, and the tasks that it starts at the boot, with their processors."""

    def __init__(self, text):
        self.processors, self.names, self.started = 0, {kind: [] for kind in OBJECTS}, {}
        kinds, first, here = {word: kind for kind, word in OBJECTS.items()}, {}, 1
        for found in STATEMENT.finditer(text):
            word, name, next_word = found[1], found[2], (found[3] or "").strip()
            if word == "PROCESSORS" and re.fullmatch(r"[1-8]", name, re.A):
                self.processors = int(name)
            elif word == "DEF_CLASS":
                first[name] = int(next_word) if re.fullmatch(r"[1-8]", next_word, re.A) else 1
            elif word == "CLASS":
                here = first.get(name, 1)
            elif word and word[4:] in kinds:
                names = self.names[kinds[word[4:]]]
                names.append(name)
                if word == "CRE_TSK" and re.search(r"\bTA_ACT\b", next_word):
                    self.started[len(names)] = here
        if not self.processors:
            raise Refused("it has no PROCESSORS(n); with n from 1 to 8: expected is a configuration, as tools/from-toppers makes it")

    def named(self, kind, number):
        names = self.names[kind]
        if kind == "task" and number == 0:
            return "TSK_SELF"
        return names[number - 1] if 1 <= number <= len(names) else str(number)
