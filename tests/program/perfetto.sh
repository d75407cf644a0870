# Timelines that tools/to-perfetto makes of traces: one made by hand, those of the examples read back, and what it refuses.

perfetto() {
    local tool=$top/tools/to-perfetto read=no
    write_small
    drawn_by_hand
    small_without_states
    arrows
    python3 -B "$top/tests/program/perfetto.py" "$program" > output 2>&1 && read=yes || cat output
    count "$read" '#' tools/to-perfetto '# read by perfetto.py'
    draws_none
    many_lines_in_a_tick
}

# Two processors, of which the second has no line before its request; a handler; a wait that a tick ends; a semaphore.
write_small() {
    cat > x.cfg <<- END
	PROCESSORS(2);
	#define FULL 2
	DEF_CLASS(C1, 1, {1, 2}); DEF_CLASS(C2, 2, {1, 2});
	CLASS(C1) { CRE_TSK(A, {TA_ACT, 0, a, 5, 1, NULL}); CRE_SEM(S, {TA_NULL, FULL, 2}); CRE_ALM(H, {TA_NULL, 0, h}); }
	CLASS(C2) { CRE_TSK(B, {TA_NULL, 0, b, 5, 1, NULL}); }
	END
    printf '%s\n' 'P1 act_tsk(B)' 'P1 pol_sem(S)' 'P2 ipi' 'P1 sta_alm(H, 0)' 'P1 dly_tsk(0)' 'P1 tick' 'P1 iwup_tsk(B)' 'P1 ret_hdr' > x.events
    "$program" calls --state x.cfg x.events > x.txt
    grep -v '^ ' x.txt > plain.txt
}

# What is drawn of it, worked out by hand: before the tick there are five lines, so line n is at n sixths of it, rounded down; behind the tick
# there are three, at thirds. The alarm is due from the tick on. A's wait is over at the same tick, and A runs when the handler has returned.
drawn_by_hand() {
    local well=no
    cat > wanted <<- END
	C S 0 - {"value": 2}
	C S 333 - {"value": 1}
	X A 0 - running P1
	X A 833 - waits dly
	X A 1000 - ready
	X A 1666 - running P1
	X B 166 - ready
	X B 500 - running P2
	X P1 0 833 A
	X P1 1000 1666 H
	X P1 1666 2000 A
	X P1 events 166 333 act_tsk(B) E_OK
	X P1 events 333 500 pol_sem(S) E_OK
	X P1 events 666 833 sta_alm(H, 0) E_OK
	X P1 events 833 1000 dly_tsk(0) wait
	X P1 events 1000 1333 tick taken
	X P1 events 1333 1666 iwup_tsk(B) E_OK
	X P1 events 1666 2000 ret_hdr E_OK
	X P2 500 2000 B
	X P2 events 500 666 ipi taken
	f P2 events 500 - ipi
	s P1 events 166 - ipi
	END
    "$tool" x.cfg x.txt > x.json 2> told && [ ! -s told ] && short x.json | diff wanted - && well=yes
    count "$well" '#' tools/to-perfetto x.cfg x.txt
}

# short FILE: its events as lines: kind, track, begin, end and name. Ends of states are left out, since the next one begins there.
short() {
    python3 - "$1" <<- 'END' | sort_by_time
	import json, sys
	events = json.load(open(sys.argv[1]))["traceEvents"]
	names = {(it["pid"], it["tid"]): it["args"]["name"] for it in events if it["name"] in ("process_name", "thread_name")}
	for it in events:
	    if it["ph"] != "M":
	        counts = it["ph"] == "C"
	        ends = it["ts"] + it["dur"] if it["ph"] == "X" and it["cat"] != "state" else "-"
	        print(it["ph"], it["name"] if counts else names[it["pid"], it["tid"]], it["ts"], ends, json.dumps(it["args"]) if counts else it["name"], sep="\t")
	END
}

# By kind, track and time, with blanks in place of tabs.
sort_by_time() {
    LC_ALL=C sort -t $'\t' -k 1,1 -k 2,2 -k 3,3n | tr '\t' ' '
}

# Without states the same but for objects, which a line tells.
small_without_states() {
    local well=no
    "$tool" x.cfg plain.txt > plain.json 2> told && grep -v '^C ' wanted > fewer && short plain.json | diff fewer - &&
        [ "$(cat told)" = 'plain.txt: note: it has no states, so no object is drawn: `fmpsim calls --state` writes a trace with them' ] &&
        "$tool" x.cfg - < plain.txt 2> told | cmp plain.json - && well=yes
    count "$well" '#' tools/to-perfetto x.cfg plain.txt
    # which of two tasks runs at the boot is not told where nothing happens on their processor
    well=no
    printf 'PROCESSORS(2); DEF_CLASS(C1, 1, {1}); DEF_CLASS(C2, 2, {2}); CLASS(C1) { CRE_TSK(A, {TA_ACT, 0, a, 5, 1, NULL}); }\nCLASS(C2) {' > y.cfg
    printf ' CRE_TSK(%s, {TA_ACT, 0, b, %s, 1, NULL});' B 5 D 6 >> y.cfg && echo ' }' >> y.cfg
    echo '1 P1 A get_tid() E_OK:1' > y.txt
    printf 'X %s\n' 'A 0 - running P1' 'B 0 - ready or running' 'D 0 - ready or running' 'P1 0 1000 A' 'P1 events 500 1000 get_tid() E_OK:1' > y.wanted
    "$tool" y.cfg y.txt > y.json 2> told && short y.json | diff y.wanted - && well=yes
    count "$well" '#' tools/to-perfetto y.cfg y.txt
}

# A request that is taken where the running task stays, and one that is taken when dispatching is enabled again. Without states it is not told where.
arrows() {
    local well=no
    printf 'PROCESSORS(2); DEF_CLASS(C1, 1, {1}); DEF_CLASS(C2, 2, {2}); CLASS(C1) { CRE_TSK(A, {TA_ACT, 0, a, 5, 1, NULL}); }\nCLASS(C2) {' > v.cfg
    printf ' CRE_TSK(%s, {%s, 0, b, %s, 1, NULL});' B TA_ACT 5 E TA_NULL 1 >> v.cfg && echo ' }' >> v.cfg
    printf '%s\n' 'P1 act_tsk(E)' 'P1 sus_tsk(E)' 'P2 get_tid()' 'P2 dis_dsp()' 'P1 rsm_tsk(E)' 'P2 get_pid()' 'P2 ena_dsp()' > v.events
    "$program" calls --state v.cfg v.events > v.txt
    grep -v '^ ' v.txt > v.plain
    printf '%s - ipi\n' 'f P2 events 375' 'f P2 events 375' 'f P2 events 875' 's P1 events 125' 's P1 events 250' 's P1 events 625' > v.wanted
    "$tool" v.cfg v.txt > v.json 2> told && short v.json | grep '^[fs]' | diff v.wanted - && "$tool" v.cfg v.plain > v.json 2> told && ! short v.json | grep '^[fs]' && well=yes
    count "$well" '#' tools/to-perfetto v.cfg v.txt
}

draws_none() {
    local status text what well
    while IFS=$'\1' read -r status text what; do
        well=no
        printf '%b' "$text" > z.txt
        "$tool" x.cfg z.txt > made 2> told
        [ $? = "$status" ] && [ ! -s made ] && [ "$(grep -v ': note: ' told)" = "$what" ] && well=yes || cat told
        count "$well" '#' tools/to-perfetto x.cfg z.txt '#' "$text"
    done <<- END
	1$(printf '\1')P1 A slp_tsk() wait\n$(printf '\1')z.txt:1: refused: \`P1 A slp_tsk() wait\` is no line of a whole trace
	1$(printf '\1')1 P3 - tick taken\n$(printf '\1')z.txt:1: refused: there is no processor 3: the configuration has 2
	1$(printf '\1')1 P1 Z get_tid() E_OK:1\n$(printf '\1')z.txt:1: refused: the configuration has no Z
	1$(printf '\1')1 P1 A slp_tsk() wait run=Z\n$(printf '\1')z.txt:1: refused: the configuration has no task Z
	1$(printf '\1')1 P1 A sig_sem(S) E_OK rel=B:E_OK\n$(printf '\1')z.txt:1: refused: B does not wait
	1$(printf '\1')  P1 run=A\n  P2 run=-\n  end\n1 P1 A slp_tsk() wait run=idle\n  P1 run=-\n  P2 run=-\n  end\n$(printf '\1')z.txt:4: refused: the state after it has no line of A, which waits: expected are the states of --state
	1$(printf '\1')  P1 run=A\n  P2 run=-\n  end\n1 P1 A slp_tsk() wait run=idle\n  P1 run=-\n  P2 run=-\n  A waits dly\n  end\n$(printf '\1')z.txt:4: refused: the state after it says of A: waits dly
	1$(printf '\1')  P1 run=A\n  P2 run=-\n  end\n1 P1 A get_tid() E_OK:1\n  P1 run=A\n  P2 run=-\n  A\n  end\n$(printf '\1')z.txt:4: refused: a name alone stands in the changes of --changes: expected are the states of --state
	1$(printf '\1')  P1 run=A\n  P2 run=-\n  end\n1 P1 A get_tid() E_OK:1\n$(printf '\1')z.txt: refused: a line has no state below it, and others have one: expected is a whole trace of --state
	1$(printf '\1')  P1 run=A\n  P2 run=-\n  S count=x\n  end\n$(printf '\1')z.txt:3: refused: \`count=x\` is no value of an object
	END
    well=no
    rm z.txt
    "$tool" x.cfg z.txt > made 2> told
    [ $? = 3 ] && [ ! -s made ] && [ "$(cat told)" = 'z.txt: cannot be read: No such file or directory' ] && well=yes
    count "$well" '#' tools/to-perfetto x.cfg z.txt
    well=no
    "$tool" x.cfg x.txt > /dev/full 2> told
    [ $? = 3 ] && [ "$(cat told)" = 'to-perfetto: what was made cannot be written: No space left on device' ] && well=yes
    count "$well" '#' tools/to-perfetto x.cfg x.txt '> /dev/full'
    well=no
    "$tool" - - > made 2> told
    [ $? = 2 ] && [ ! -s made ] && grep -q '^usage: to-perfetto' told && well=yes
    count "$well" '#' tools/to-perfetto - -
}

# Where more lines than 1000 stand in a tick, each has still a time of its own.
many_lines_in_a_tick() {
    local well=no
    seq -f '%.0f P1 A get_tid() E_OK:1' 2500 > many.txt
    "$tool" x.cfg many.txt 2> told | grep -o '"P1 events"\|"cat": "event".* "ts": [0-9.]*' | grep -o '[0-9.]*$' | grep . > times
    [ "$(sort -un times | wc -l)" = 2500 ] && [ "$(head -n 1 times) $(tail -n 1 times)" = '0.4 999.6' ] && sort -nc times && well=yes
    count "$well" '#' tools/to-perfetto x.cfg many.txt
}
