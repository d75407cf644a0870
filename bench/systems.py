"""Systems on which `explore` is measured: of each its configuration and its scripts."""


def classes(processors):
    """So many processors, and a class for each, whose tasks may run on all of them."""
    everyone = ", ".join(str(p) for p in range(1, processors + 1))
    lines = [f"PROCESSORS({processors});"]
    return lines + [f"DEF_CLASS(C{p}, {p}, {{{everyone}}});" for p in range(1, processors + 1)]


def in_class(number, lines):
    return [f"CLASS(C{number}) {{", *("  " + line for line in lines), "}"]


def task(name, attribute, priority, function="main_all"):
    return f"CRE_TSK({name}, {{{attribute}, 0, {function}, {priority}, 4096, NULL}});"


def text_of(lines):
    return "\n".join(lines) + "\n"


def script(name, calls):
    return [f"script {name}", *calls, "end"]


def philosophers(count):
    """Each takes the fork on its left, then the one on its right, on a processor of its own."""
    config, scripts = classes(count), []
    for p in range(1, count + 1):
        body = [task(f"PHIL{p}", "TA_ACT", 10, f"phil{p}"), f"CRE_SEM(FORK{p}, {{TA_TFIFO, 1, 1}});"]
        config += in_class(p, body)
        left, right = f"FORK{p}", f"FORK{p % count + 1}"
        calls = [f"wai_sem({left})", f"wai_sem({right})", "get_tid()", f"sig_sem({left})", f"sig_sem({right})"]
        scripts += script(f"phil{p}", calls)
    return text_of(config), text_of(scripts)


def spread(processors, tasks, objects):
    """A configuration whose tasks go round the processors. Of the tasks of one processor each has a lower priority than that before it. What else a
    processor has is made by `objects`, of its number and those of its tasks."""
    lines = classes(processors)
    for p in range(1, processors + 1):
        own = range(p, tasks + 1, processors)
        body = [task(f"T{t}", "TA_ACT", 5 + (t - 1) // processors, f"task{t}") for t in own]
        lines += in_class(p, body + objects(p, own))
    return text_of(lines)


def lock(processors, tasks):
    """Each task takes two buses once, one after the other, the second one with a CPU-locked section. There is a bus for each processor."""
    config = spread(processors, tasks, lambda p, _: [f"CRE_SEM(BUS{p}, {{TA_TPRI, 1, 1}});"])
    scripts = []
    for t in range(tasks):
        first = (t + t // processors % 2) % processors
        one, two = f"BUS{first + 1}", f"BUS{(first + 1) % processors + 1}"
        calls = [f"wai_sem({one})", "get_tid()", f"sig_sem({one})"]
        calls += [f"wai_sem({two})", "loc_cpu()", "get_tid()", "unl_cpu()", f"sig_sem({two})"]
        scripts += script(f"task{t + 1}", calls)
    return config, text_of(scripts)


def pipe(processors, tasks):
    """A chain of tasks over data queues of capacity 2, through which go four values."""
    config = spread(processors, tasks, lambda _, own: [f"CRE_DTQ(D{t}, {{TA_TFIFO, 2, NULL}});" for t in own if t < tasks])
    scripts = []
    for t in range(1, tasks + 1):
        taken = [f"rcv_dtq(D{t - 1})"] if t > 1 else []
        given = [f"snd_dtq(D{t}, 1)"] if t < tasks else []
        scripts += script(f"task{t}", 4 * [*taken, "get_tid()", *given])
    return config, text_of(scripts)


def control(processors, tasks):
    """On each processor a cyclic handler wakes a task, which sends a value to the first task, a logger. Other tasks take a bus, and wait for a tick
    then. All of them begin again."""

    def objects(p, _):
        own = [f"CRE_CYC(CYC{p}, {{TA_STA, 0, cyc{p}, 3, 1}});", f"CRE_SEM(S{p}, {{TA_TFIFO, 0, 1}});"]
        return own + (["CRE_SEM(BUS, {TA_TPRI, 1, 1});", "CRE_DTQ(LOG, {TA_TFIFO, 2, NULL});"] if p == 1 else [])

    scripts = []
    for p in range(1, processors + 1):
        scripts += script(f"cyc{p}", [f"isig_sem(S{p})"])
    for t in range(tasks):
        calls = ["wai_sem(BUS)", "get_tid()", "sig_sem(BUS)", "dly_tsk(1)"]
        if t == 0:
            calls = ["rcv_dtq(LOG)"]
        elif t // processors % 2 == 0:
            calls = [f"twai_sem(S{t % processors + 1}, 4)", "psnd_dtq(LOG, 1)"]
        scripts += script(f"task{t + 1}", ["again:", *calls, "goto again"])
    return spread(processors, tasks, objects), text_of(scripts)
