"""random_events.py PROGRAM SEED PROCESSORS MASTER: random events on a machine with so many processors, whose time is that of the processor
MASTER, or of each where this is 0. `calls` plays them on the kernel and `check` on the plain machine: these answer alike. After every
fifth event `check --show` tells of the plain machine the state that `calls --state` tells of the kernel. Who keeps what `calls --changes` tells has each of these states.
A question for facts of one state after the other is shown by all of the first events, and by no fewer.
Prints how many calls were accepted."""
import subprocess
import sys

sys.dont_write_bytecode = True
import facts

program, *numbers = sys.argv[1:]
seed, processors, master = map(int, numbers)
EVENTS, BETWEEN_STATES = 1000, 5

# Of so many events facts are asked for, so many of each.
ASKED, FACTS = 200, 12

# Of each class its processors, if there are so many, and its tasks. The first processor of a class is the initial one.
CLASSES = ((1, 2, 3, 4, 5, 6, 7, 8), (2, 1, 3), (3, 1, 2, 4), (4, 2), (5, 1, 6), (6, 1), (7, 1), (8, 7))
TASKS = ("A+5 B-4 D+5", "A+5 B+4 D-5", "A+6 B+6 D+6", "A+3 B-4 D-5", "A+5 B+5 D-2", "A+5 B-4 D+1", "A+7 B+7 D+7", "A+5 B-4 D+5")

# Three objects of each kind for which tasks wait, in both orders, and three spin locks.
OBJECTS = """CLASS(C1) {
CRE_SEM(SA, {TA_NULL, 1, 2}); CRE_SEM(SB, {TA_TPRI, 0, 3}); CRE_SEM(SC, {TA_TPRI, 0, 1});
CRE_FLG(FA, {TA_WMUL, 0}); CRE_FLG(FB, {TA_TPRI | TA_WMUL | TA_CLR, 1}); CRE_FLG(FC, {TA_CLR, 0});
CRE_DTQ(QA, {TA_NULL, 2, NULL}); CRE_DTQ(QB, {TA_TPRI, 1, NULL}); CRE_DTQ(QC, {TA_NULL, 0, NULL});
CRE_MPF(MA, {TA_NULL, 2, 16, NULL, NULL}); CRE_MPF(MB, {TA_TPRI, 1, 16, NULL, NULL}); CRE_MPF(MC, {TA_TPRI, 3, 16, NULL, NULL});
CRE_SPN(KA, {TA_NULL}); CRE_SPN(KB, {TA_NULL}); CRE_SPN(KC, {TA_NULL});
}
"""
HANDLERS = """
CRE_CYC(YA, {TA_STA, 0, h, 3, 1}); CRE_CYC(YB, {TA_STA, 0, h, 5, 0}); CRE_CYC(YC, {TA_NULL, 0, h, 1, 2});
CRE_ALM(LA, {TA_NULL, 0, h}); CRE_ALM(LB, {TA_NULL, 0, h}); CRE_ALM(LC, {TA_NULL, 0, h});
}
"""

# Calls with the kinds of their arguments: an object of a kind (`TSFQMYLK`), a processor, a small number, a pattern, a mode, a block. A
# call that stands several times is as many times as likely: ends of tasks and waits for ever are rare, so that tasks go on to run,
# and there are more that unlock than that lock.
CALLS = """ext_tsk slp_tsk ter_tsk:T tslp_tsk:n dly_tsk:n sus_tsk:T sus_tsk:T rsm_tsk:T rsm_tsk:T rel_wai:T rel_wai:T irel_wai:T irel_wai:T
wup_tsk:T wup_tsk:T iwup_tsk:T iwup_tsk:T can_wup:T can_act:T chg_pri:Tn chg_pri:Tn chg_pri:Tn get_pri:T mig_tsk:Tp mig_tsk:Tp
mig_tsk:Tp mact_tsk:Tp mact_tsk:Tp mact_tsk:Tp imact_tsk:Tp imact_tsk:Tp imact_tsk:Tp iact_tsk:T iact_tsk:T iact_tsk:T
act_tsk:T act_tsk:T act_tsk:T act_tsk:T act_tsk:T
sig_sem:S sig_sem:S isig_sem:S isig_sem:S wai_sem:S twai_sem:Sn pol_sem:S set_flg:Fb set_flg:Fb iset_flg:Fb clr_flg:Fb wai_flg:Fbm
twai_flg:Fbmn pol_flg:Fbm snd_dtq:Qn tsnd_dtq:Qnn psnd_dtq:Qn ipsnd_dtq:Qn fsnd_dtq:Qn ifsnd_dtq:Qn rcv_dtq:Q trcv_dtq:Qn prcv_dtq:Q
get_mpf:M tget_mpf:Mn pget_mpf:M rel_mpf:Mk rel_mpf:Mk
sta_cyc:Y msta_cyc:Yp stp_cyc:Y sta_alm:Ln ista_alm:Ln msta_alm:Lnp imsta_alm:Lnp stp_alm:L istp_alm:L
rot_rdq:n irot_rdq:n mrot_rdq:np imrot_rdq:np get_tid iget_tid get_pid iget_pid loc_cpu iloc_cpu unl_cpu unl_cpu unl_cpu iunl_cpu
iunl_cpu dis_dsp ena_dsp ena_dsp ena_dsp sns_ctx sns_loc sns_dsp sns_dpn
loc_spn:K iloc_spn:K try_spn:K itry_spn:K unl_spn:K unl_spn:K iunl_spn:K iunl_spn:K""".split()

# Calls that go well more often than not: where a handler is due, where else dispatching is held, and where neither is so.
OF_HANDLERS = "iact_tsk:T isig_sem:S iset_flg:Fb ret_hdr ret_hdr".split()
OF_HELD = "unl_cpu unl_cpu ena_dsp unl_spn:K unl_spn:K".split()
OF_FREE = "act_tsk:T act_tsk:T wup_tsk:T rsm_tsk:T sig_sem:S psnd_dtq:Qn set_flg:Fb".split()


def below(limit):
    global seed
    seed = (seed * 6364136223846793005 + 1442695040888963407) % 2**64
    return (seed >> 33) % limit


def number(most):
    """One up to the greatest, and now and then 0 or one too many."""
    return str(below(most + 2))


def argument(kind):
    if kind == "T":
        return number(3 * processors)
    if kind == "p":
        return number(processors)
    if kind == "m":
        return ("TWF_ANDW", "TWF_ORW")[below(2)]
    return {"n": lambda: str(below(9)), "b": lambda: str(below(8)), "k": lambda: str(below(9) - 1)}.get(kind, lambda: number(3))()


def call(names):
    name, _, kinds = names[below(len(names))].partition(":")
    return name if name == "ret_hdr" else f"{name}({', '.join(map(argument, kinds))})"


def machine():
    lines = [f"PROCESSORS({processors});"] + ([f"TIMER(GLOBAL, {master});", f"DEF_CLASS(CM, {master}, {{{master}}});"] if master else [])
    for p, (members, tasks) in enumerate(zip(CLASSES[:processors], TASKS), 1):
        lines.append(f"DEF_CLASS(C{p}, {p}, {{{', '.join(str(m) for m in members if m <= processors)}}});")
        made = (f"CRE_TSK({task[0]}{p}, {{{'TA_ACT' if task[1] == '+' else 'TA_NULL'}, 0, m, {task[2]}, 64, NULL}});" for task in tasks.split())
        lines.append(f"CLASS(C{p}) {{ {' '.join(made)} }}")
    return "\n".join(lines) + f"\n{OBJECTS}CLASS({'CM' if master else 'C1'}) {{{HANDLERS}"


def event(state):
    """One on a processor, rather on one that does something."""
    p = below(processors)
    if " run=-" in state[p] and " due=" not in state[p]:
        p = below(processors)
    names = OF_HANDLERS if " due=" in state[p] else OF_HELD if " locked" in state[p] or " disabled" in state[p] else OF_FREE
    kind = below(12)
    said = ("tick", "ipi", "ret_hdr")[kind] if kind < 3 else call(names if kind < 7 else CALLS)
    return f"P{p + 1} {said}\n"


def read_state(told):
    lines = []
    while not lines or lines[-1] != "  end\n":
        line = told.readline()
        if not line:
            sys.exit("the state ends early")
        lines.append(line)
    return lines


def played():
    """The events, the lines of the trace, and the state behind each, that at boot first."""
    with subprocess.Popen([program, "calls", "--state", "machine.cfg", "-"], stdin=subprocess.PIPE, stdout=subprocess.PIPE, text=True) as calls:
        events, trace, states = [], [], [read_state(calls.stdout)]
        for _ in range(EVENTS):
            events.append(event(states[-1]))
            calls.stdin.write(events[-1])
            calls.stdin.flush()
            trace.append(calls.stdout.readline())
            states.append(read_state(calls.stdout))
        calls.stdin.close()
    if calls.returncode:
        sys.exit(f"calls: status {calls.returncode}")
    return events, trace, states


def kept(events):
    """The lines that a reader of the changes keeps by their first words, at each end."""
    with open("events.txt", "w", encoding="utf-8") as file:
        file.writelines(events)
    told = subprocess.run([program, "calls", "--changes", "machine.cfg", "events.txt"], stdout=subprocess.PIPE, text=True, check=True).stdout
    lines, ends = {}, []
    for line in told.splitlines(keepends=True):
        words = line.split()
        if line == "  end\n":
            ends.append(sorted(lines.values()))
        elif line.startswith(" ") and len(words) == 1:
            del lines[words[0]]
        elif line.startswith(" "):
            lines[words[0]] = line
    return ends


def checked(*words):
    with open("trace.txt", "w", encoding="utf-8") as file:
        file.writelines(words[-1])
    return subprocess.run([program, "check", *words[:-1], "machine.cfg", "trace.txt"], stdout=subprocess.PIPE, text=True, check=False).stdout


def chosen(told):
    """Some of the facts of a state, other ones each time."""
    return [told[below(len(told))] for _ in range(FACTS)]


def asked(events, states):
    """What is left of the first events where the question asks for facts of the state behind each."""
    with open("events.txt", "w", encoding="utf-8") as file:
        file.writelines(events[:ASKED])
    with open("machine.cfg", encoding="utf-8") as file:
        objects = facts.configured(file.read())
    question = facts.question_of(objects, [[line for line in state if line != "  end\n"] for state in states[1:ASKED + 1]], chosen)
    left = subprocess.run([program, "shrink", "machine.cfg", "events.txt", f"--find={question}"], capture_output=True, text=True, check=False)
    return left.returncode, left.stdout.splitlines(), left.stderr, question


with open("machine.cfg", "w", encoding="utf-8") as file:
    file.write(machine())
events, trace, states = played()
if checked(trace) != "yes\n":
    sys.exit("the plain machine answers otherwise:\n" + checked("--show", trace))
if kept(events) != [sorted(state[:-1]) for state in states]:
    sys.exit("the changes lead to other states")
for count in range(0, EVENTS, BETWEEN_STATES):
    # No machine answers the line behind them, so that the report has its state before it.
    report = checked("--show", trace[:count] + [f"{count + 1} P1 - get_pid() E_OK:9\n"])
    shown = f"no {count + 1}\n" + "".join(states[count])
    if not report.startswith(shown):
        sys.exit(f"check --show tells another state:\n{report}in place of\n{shown}")
status, left, said, question = asked(events, states)
if status or len(left) != ASKED:
    sys.exit(f"shrink: status {status}, {len(left)} of {ASKED} events: {said}{question}")
print(sum(" E_OK" in line for line in trace))
