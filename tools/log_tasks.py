"""What becomes of tasks by a kernel's log: their states, which events may be the cause, and by which of them a wait ended."""
from log_answers import NOTHING_TOLD, UNTOLD
from log_calls import plain

RUNNABLE, DORMANT, WAITING, SUSPENDED, BOTH = "RUNNABLE", "DORMANT", "WAITING", "SUSPENDED", "WAITING-SUSPENDED"
# What a task of each state may become. A task that the kernel starts at the boot has no state before its first one.
NEXT = {
    None: {RUNNABLE},
    DORMANT: {RUNNABLE},
    RUNNABLE: {DORMANT, WAITING, SUSPENDED},
    WAITING: {RUNNABLE, DORMANT, BOTH},
    SUSPENDED: {RUNNABLE, DORMANT, BOTH},
    BOTH: {WAITING, SUSPENDED, DORMANT},
}
# What ends a wait in a call, for the same object.
ENDS = {
    "wai_sem": {"sig_sem"},
    "wai_flg": {"set_flg"},
    "snd_dtq": {"rcv_dtq", "trcv_dtq", "prcv_dtq"},
    "rcv_dtq": {"snd_dtq", "tsnd_dtq", "psnd_dtq", "fsnd_dtq"},
    "get_mpf": {"rel_mpf"},
}
TIMED = {"twai_sem": "wai_sem", "twai_flg": "wai_flg", "tsnd_dtq": "snd_dtq", "trcv_dtq": "rcv_dtq", "tget_mpf": "get_mpf", "tslp_tsk": "slp_tsk"}


def is_timed(name):
    return name in TIMED or name == "dly_tsk"


def waits_begin(before, state):
    """Whether a task begins to wait, by itself, where it becomes this."""
    return state == WAITING and before == RUNNABLE or state == BOTH and before == SUSPENDED


def waits_end(before, state):
    return before == WAITING and state == RUNNABLE or before == BOTH and state == SUSPENDED


def first_argument(event):
    return event.text[len(event.name) + 1:].split(",", 1)[0].rstrip(")")


def aims_at(event, task, name):
    """Whether a call names this task, by its number and its name."""
    target = first_argument(event)
    return target == name or target == "TSK_SELF" and event.running == task


def may_make(event, task, name, before, state, waited):
    """Whether an event can make of a task what it becomes. `waited` is the event in which it waits."""
    call = plain(event.name)
    if waits_end(before, state):
        return may_end(event, call, task, name, waited)
    if state == DORMANT:
        return call == "ext_tsk" and event.running == task or call == "ter_tsk" and aims_at(event, task, name)
    if before == DORMANT:
        started = call in ("act_tsk", "mact_tsk", "ter_tsk") and aims_at(event, task, name)
        return started or call == "ext_tsk" and event.running == task
    wanted = "sus_tsk" if state in (SUSPENDED, BOTH) else "rsm_tsk"
    return call == wanted and aims_at(event, task, name)


def may_end(event, call, task, name, waited):
    """Whether an event can end a wait."""
    if waited is None:
        return True
    if call == "rel_wai":
        return aims_at(event, task, name)
    if call == "tick":
        return is_timed(waited.name)
    kind = TIMED.get(waited.name, waited.name)
    if kind == "slp_tsk":
        return call == "wup_tsk" and aims_at(event, task, name)
    return call in ENDS.get(kind, ()) and first_argument(event) == first_argument(waited)


class Ended:
    """The end of a wait: its line, its task, the event that waited, what it answered, and the events that may have ended it."""

    __slots__ = ("line", "task", "waited", "code", "causes", "other")

    def __init__(self, line, task, waited, causes, other):
        # Where something is under way that is left out, that may be the cause too.
        self.line, self.task, self.waited, self.causes, self.other, self.code = line, task, waited, causes, other, None

    def answered(self, code):
        """The call that waited answered this, by which some events are not the cause, if others can be."""
        self.code = None if code == UNTOLD else code
        if self.code and not self.other:
            # Where none ends a wait so, the answer is wrong, whichever it was: the first is as good as any.
            self.causes = [it for it in self.causes if self.fits(it)] or self.causes[:1]
            if len(self.causes) == 1:
                self.causes[0].pin(self.line)

    def fits(self, event):
        """Whether an event ends this wait with this code."""
        code, call = self.code.split(":")[0], plain(event.name)
        if call == "rel_wai":
            return code == "E_RLWAI"
        if call == "tick":
            return code == ("E_OK" if self.waited.name == "dly_tsk" else "E_TMOUT")
        if call == "rel_mpf" and "@" in self.code:
            return event.text.endswith(f", {self.code.split('@')[1]})")
        return code == "E_OK"

    def said(self):
        """With what the wait ended, as far as the log says it."""
        return self.code or NOTHING_TOLD
