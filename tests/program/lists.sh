# What may be written in the texts, and what was read of a configuration, as `list` tells it.

lists() {
    local each=no call calls
    run 0 "$(as_file printf '%s\n' 'chg_pri(task, priority)' '  task: its name, TSK_SELF for 0, or a number of 32 bits with a sign' \
        '  priority: a number of 32 bits with a sign, TPRI_SELF for 0, or TPRI_INI for 0' \
        '  does: The task has the priority, 0 for its initial one, and comes last of it.' \
        '  answers: E_OK; E_OBJ where it is dormant.')" /dev/null list chg_pri
    run 0 "$(as_file printf '%s\n' ret_hdr '  does: The handler is due no longer, the processor is unlocked, and a spin lock of it is freed.' \
        '  answers: E_OK; E_CTX from a task.')" /dev/null list ret_hdr
    run 0 "$(as_file printf '%s\n' E_TMOUT '  The time of the wait is over, or what was asked for without a wait is not to be had.')" /dev/null list E_TMOUT
    run 0 "$(as_file printf '%s\n' TA_TPRI '  Tasks wait by priority, and among equals first come first.')" /dev/null list TA_TPRI
    run 2 /dev/null "$(as_file printf '%s\n' 'fmpsim: nothing is called e_tmout: see fmpsim list' '  near: E_TMOUT')" list e_tmout
    run 2 /dev/null "$(as_file printf '%s\n' 'fmpsim: nothing is called act_tks: see fmpsim list' '  near: act_tsk')" list act_tks
    run 2 /dev/null "$(as_file printf '%s\n' 'fmpsim: nothing is called DEFCLASS: see fmpsim list' '  near: DEF_CLASS')" list DEFCLASS
    run 0 "$(as_file printf '%s\n' 'CRE_SEM(semid, {sematr | .., isemcnt, maxsem});' '  sematr: TA_NULL TA_TFIFO TA_TPRI' \
        '  maxsem: within 1 to 65535' '  isemcnt: within 0 to maxsem')" /dev/null list CRE_SEM
    run 0 "$(as_file printf '%s\n' 'CRE_MPF(mpfid, {mpfatr | .., blkcnt, blksz, mpf, mpfmb});' '  mpfatr: TA_NULL TA_TFIFO TA_TPRI' \
        '  blkcnt: within 1 to 64')" /dev/null list CRE_MPF
    run 0 "$(as_file printf '%s\n' 'CRE_CYC(cycid, {cycatr | .., exinf, cychdr, cyctim, cycphs});' '  cycatr: TA_NULL TA_STA' \
        '  cyctim: within 1 to 2147483647' '  cycphs: within 0 to 2147483647')" /dev/null list CRE_CYC
    run 0 "$(as_file printf '%s\n' 'F10 no PROCESSORS line' '  Begin with `PROCESSORS(n);`.')" /dev/null list F10
    run 0 "$(as_file echo fmpsim has no ini_sem)" /dev/null list ini_sem
    run 0 "$(as_file printf '%s\n' mutex '  There are none. A semaphore of at most 1 excludes as one does, but changes no priority: see `CRE_SEM`.')" /dev/null list mutex
    run 2 /dev/null "$(as_file echo fmpsim: nothing is called jump: see fmpsim list)" list jump
    unwritten list
    # each call, statement and fault has one line, and each call of the document has one
    play list
    [ "$(grep -cE '^[a-z]+_[a-z]+(\(.*\))?$' output)" = 78 ] && [ "$(grep -cE '^[A-Z_]+\(' output)" = 14 ] \
        && [ "$(grep -cE '^[EF][0-9]+ ' output)" = 21 ] && each=yes
    calls=$(sed -n '/^## Calls/,/^## Arguments/p' "$top/docs/formats/events.md" | grep -oE '`[a-z]+_[a-z]+`' | tr -d '`' | sort -u)
    [ "$(wc -w <<< "$calls")" = 78 ] || each=no
    for call in $calls; do
        grep -qE "^$call(\(|$)" output || each=no
    done
    count "$each" list
    listed_deeds
    listed_texts
    listed_words
    listed_names
    listed_faults
    left_out_names
    listed_configurations
    refused_configurations
}

# What was read of configurations: each kind of objects twice, one timer and the other, classes that are alike, and nothing but processors.
listed_configurations() {
    write_each_kind
    cat > each_kind.txt <<'END'
processors 3
timer global P2
limits wupcnt 7 pri 20
class ALL initial P2 processors P1 P2 P3
class MASTER initial P2 processors P2
class SAME initial P2 processors P1 P2 P3
class OTHER initial P1 processors P1 P2 P3
task 1 FIRST class ALL|SAME attr TA_ACT main first itskpri 20
task 2 SECOND class MASTER attr TA_NULL main second itskpri 1
task 3 THIRD class OTHER attr TA_NULL main first itskpri 16
sem 1 S1 attr TA_TPRI isemcnt 2 maxsem 65535
sem 2 S2 attr TA_TFIFO isemcnt 0 maxsem 1
flg 1 F1 attr TA_TFIFO|TA_WSGL iflgptn 0
flg 2 F2 attr TA_TPRI|TA_WMUL|TA_CLR iflgptn 4294967295
flg 3 F3 attr TA_TFIFO|TA_WSGL|TA_CLR iflgptn 10
dtq 1 QA attr TA_TFIFO dtqcnt 1024
dtq 2 QB attr TA_TPRI dtqcnt 0
mpf 1 M1 attr TA_TPRI blkcnt 64
mpf 2 M2 attr TA_TFIFO blkcnt 1
cyc 1 CLOCK class MASTER attr TA_STA handler clock cyctim 20 cycphs 3
cyc 2 SLOW class MASTER attr TA_NULL handler first cyctim 2147483647 cycphs 2147483647
alm 1 ALARM class MASTER handler ring
alm 2 AGAIN class MASTER handler clock
spn 1 L1
spn 2 L2
function 1 first
function 2 ring
function 3 second
function 4 clock
field FIRST exinf 0
field FIRST stksz 4096
field ALARM exinf 0
field SECOND exinf 0
field SECOND stksz 4096
field M1 blksz 16
field M2 blksz 16
field CLOCK exinf 0
field SLOW exinf 0
field AGAIN exinf 0
field THIRD exinf 0
field THIRD stksz 4096
END
    run 0 each_kind.txt /dev/null list ./each_kind.cfg
    run 0 each_kind.txt /dev/null list --context each_kind.cfg
    run 0 each_kind.txt /dev/null list each_kind.cfg --context
    # a name that stands for a number is told as the number
    sed 's/PERIOD, 3/20, 3/; /^#define/d' each_kind.cfg > numbers.cfg
    run 0 each_kind.txt /dev/null list numbers.cfg
    printf 'PROCESSORS(8);\n' > bare.cfg
    run 0 "$(as_file printf '%s\n' 'processors 8' 'timer local' 'limits wupcnt 1 pri 16')" /dev/null list bare.cfg
    printf 'PROCESSORS(1);\nTIMER(LOCAL);\nDEF_CLASS(C, 1, {1});\nCLASS(C) {\n}\n' > class.cfg
    run 0 "$(as_file printf '%s\n' 'processors 1' 'timer local' 'limits wupcnt 1 pri 16' 'class C initial P1 processors P1')" /dev/null list class.cfg
    unwritten list "$late/machine.cfg"
    unwritten list each_kind.cfg
}

# Writes a configuration that has each kind of objects.
write_each_kind() {
    cat > each_kind.cfg <<'END'
#include <kernel.h>
#define PERIOD 0x14   /* twenty */
INCLUDE("target.cfg");
PROCESSORS(3);
LIMITS(7, 20);
TIMER(GLOBAL, 2);
DEF_CLASS(ALL, 2, {3, 1, 2});
DEF_CLASS(MASTER, 2, {2});
DEF_CLASS(SAME, 2, {1, 2, 3});
DEF_CLASS(OTHER, 1, {1, 2, 3});
CLASS(SAME) { CRE_TSK(FIRST, {TA_ACT, 0, first, 20, 4096, NULL}); }
CLASS(MASTER) {
  CRE_ALM(ALARM, {TA_NULL, 0, ring}); CRE_SPN(L1, {TA_NULL});
  CRE_SEM(S1, {TA_TPRI, 2, 65535}); CRE_SEM(S2, {TA_NULL, 0, 1});
  CRE_FLG(F1, {TA_NULL, 0}); CRE_FLG(F2, {TA_TPRI|TA_WMUL|TA_CLR, 0xffffffff}); CRE_FLG(F3, {TA_CLR, 0xa});
  CRE_TSK(SECOND, {TA_NULL, 0, second, 1, 4096, NULL});
  CRE_DTQ(QA, {TA_TFIFO, 1024, NULL}); CRE_DTQ(QB, {TA_TPRI, 0, NULL});
  CRE_MPF(M1, {TA_TPRI, 64, 16, NULL, NULL}); CRE_MPF(M2, {TA_NULL, 1, 16, NULL, NULL});
  CRE_CYC(CLOCK, {TA_STA, 0, clock, PERIOD, 3}); CRE_CYC(SLOW, {TA_NULL, 0, first, 2147483647, 2147483647});
  CRE_ALM(AGAIN, {TA_NULL, 0, clock});
}
CLASS(OTHER) { CRE_TSK(THIRD, {TA_NULL, 0, first, 16, 4096, NULL}); CRE_SPN(L2, {TA_NULL}); }
END
}

# Configurations of which nothing is told but a fault, and words that are no path.
refused_configurations() {
    local size
    unread list ./missing
    unread list act_tsk.
    unread list "$top"
    run 3 /dev/null "$(as_file printf '%s\n' 'fmpsim: read failed' '  ./missing: No such file or directory (os error 2)')" list ./missing --context
    run 3 /dev/null "$(as_file printf '%s\n' 'fmpsim: read failed' "  $top: Is a directory (os error 21)")" list --context "$top"
    : > empty.cfg
    run 1 /dev/null "$(as_file echo 'fmpsim: empty.cfg: line 1: F10 no PROCESSORS line')" list empty.cfg
    printf 'PROCESSORS(2);\nDEF_CLASS(C, 1, {1});\nCLASS(C) { CRE_SEM(S, {TA_NULL, 2, 1}); }\n' > count.cfg
    run 1 /dev/null "$(as_file echo 'fmpsim: count.cfg: line 3: F7 value out of range')" list count.cfg
    printf 'PROCESSORS(1);\nDEF_CLASS(C, 1, {1});\nCLASS(C) {\n' > open.cfg
    run 1 /dev/null "$(as_file echo 'fmpsim: open.cfg: line 3: F2 cut short')" list open.cfg
    head -c 1048577 /dev/zero | tr '\0' ' ' > long.cfg
    run 1 /dev/null "$(as_file echo 'fmpsim: long.cfg: line 0: F9 too many')" list long.cfg
    printf 'PROCESSORS(1);\nCRE_SPN(L, {TA_NULL});\n' > outside.cfg
    run 1 /dev/null "$(as_file printf '%s\n' 'fmpsim: outside.cfg: line 2: F4 outside a class CRE_SPN' '  CRE_SPN(L, {TA_NULL});' '  ^' \
        '  Put the statement into a `CLASS(..) { .. }`.')" list outside.cfg --context
    # a beginning of a text is listed or has a fault, and never both
    for size in $(seq 0 40 1240); do
        head -c "$size" each_kind.cfg > begun.cfg
        play list begun.cfg
        case $? in
            0) [ -s output ] && [ ! -s errors ] ;;
            1) [ ! -s output ] && [ "$(wc -l < errors)" = 1 ] ;;
            *) false ;;
        esac && count yes list || count no list "# $size bytes"
    done
    run 2 /dev/null "$(as_file echo fmpsim: nothing is called machine: see fmpsim list)" list machine
    run 2 /dev/null "$(as_file echo fmpsim: nothing is called -: see fmpsim list)" list -
}

# Of each call it is told what it does and what it answers, word for word as deeds.txt has it, which was written by hand; and each of the
# call's errors in docs/PROFILE.md is there.
listed_deeds() {
    local call each=yes code
    play list
    for call in $(grep -oE '^[a-z]+_[a-z]+' output); do
        play list "$call"
        { echo "$call" && tail -n 2 output; } >> deeds
        for code in $(grep -E "^\|.*\`$call[(\`]" "$top/docs/PROFILE.md" | cut -d '|' -f 3 | grep -oE 'E_[A-Z]+'); do
            tail -n 1 output | grep -q "$code" || { each=no && echo "list $call: $code"; }
        done
    done
    diff "$top/tests/program/deeds.txt" deeds || each=no
    count "$each" list '# each call'
}

# Of each call, statement, fault and word is told what told.txt has, word for word, which was written by hand, and of a call also what deeds.txt has. The list
# has under its headings the first line of each call, statement and fault.
listed_texts() {
    local name each=yes texts=$top/tests/program/told.txt
    for name in $(grep -oE '^[A-Za-z][A-Za-z0-9_]*' "$texts"); do
        play list "$name"
        grep -vE '^  (does|answers): ' output >> told
    done
    diff "$texts" told || each=no
    {
        echo 'Service calls:' && grep -E '^[a-z]+_[a-z]+' "$texts"
        printf '\n%s\n' 'Statements of a configuration:' && grep -E '^[A-Z_]+\(' "$texts"
        printf '\n%s\n' 'Faults of a configuration:' && grep -E '^F[0-9]+ ' "$texts"
        printf '\n%s\n' 'Faults of events, scripts and traces:' && grep -E '^E[0-9]+ ' "$texts"
    } > whole
    play list
    diff whole output || each=no
    count "$each" list '# each text'
}

# Each word of a trace in docs/FORMATS.md, each code and each attribute is told, in two lines.
listed_words() {
    local word each=yes
    for word in E_OK E_PAR E_ID E_CTX E_ILUSE E_OBJ E_QOVR E_RLWAI E_TMOUT wait spin gone idle held taken none rel lost run ipi tick latch \
        ready running dormant empty locked disabled due suspended waits left pri act wup count pattern values free stopped end refused E9 TA_NULL TA_ACT TA_STA TA_TFIFO TA_TPRI TA_WSGL TA_WMUL TA_CLR TSK_SELF TPRI_SELF TPRI_INI TPRC_INI TMO_POL TMO_FEVR TWF_ANDW TWF_ORW \
        task semaphore eventflag alarm cyclic mutex interrupt; do
        play list "$word" && [ "$(head -n 1 output)" = "$word" ] && [ "$(grep -cE '^  .*\.$' output)" = 1 ] && [ "$(wc -l < output)" = 2 ] ||
            { each=no && echo "list $word"; }
    done
    # of a state each word that FORMATS has
    for word in $(sed -n '/^## A trace with states/,/^| Part/p' "$top/docs/formats/trace.md" | grep -E '^      ' | grep -oE '[a-z]{3,}=?' | grep -vE '^(task|semaphore|eventflag|data|queue|pool|cyclic|handler|alarm|spin|lock|for|ticks|priority|value)$' | tr -d = | sort -u); do
        play list "$word" && [ "$(wc -l < output)" = 2 ] || { each=no && echo "list $word"; }
    done
    count "$each" list '# each word'
}

# Of each name that stands in the list there is something to tell, which begins with the name.
listed_names() {
    local name each=yes names
    play list
    mapfile -t names < "$(grep -v ':$' output | grep -oE '^[A-Za-z][A-Za-z0-9_]*' | as_file)"
    [ "${#names[@]}" = 113 ] || each=no
    for name in "${names[@]}"; do
        play list "$name" && [ ! -s errors ] && head -n 1 output | grep -qE "^$name\b" || { each=no && echo "list $name"; }
    done
    count "$each" list '# each name of the list'
}

# The faults of the document, each with its number and words, and no others.
listed_faults() {
    local fault each=yes
    cat > faults.txt <<'END'
F1 syntax
F2 cut short
F3 unsupported API
F4 outside a class
F5 unknown class
F6 name taken
F7 value out of range
F8 attribute not allowed
F9 too many
F10 no PROCESSORS line
F11 bad class
F12 want of memory
F13 handler outside the time master
E1 bad byte
E2 bad word
E3 unknown name
E4 wrong arguments
E5 number out of range
E6 cut short
E7 too many
E8 want of memory
END
    play list
    diff faults.txt "$(as_file grep -E '^[EF][0-9]' output)" || each=no
    while read -r fault; do
        play list "${fault%% *}" && [ "$(head -n 1 output)" = "$fault" ] && [ "$(grep -c '^  [A-Z]' output)" = 1 ] || { each=no && echo "$fault"; }
    done < faults.txt
    count "$each" list '# each fault'
}

# What such a kernel may have and the profile has not: mutexes, mailboxes, priority data queues, message buffers, variable pools, task
# exceptions, overrun handlers, interrupt lines, exceptions of the processor, creation and deletion while it runs, references,
# initialization, the time of the system, and single calls.
left_out_names() {
    local name each=yes
    local names=(loc_mtx ploc_mtx tloc_mtx unl_mtx CRE_MTX snd_mbx rcv_mbx prcv_mbx trcv_mbx CRE_MBX snd_pdq psnd_pdq ipsnd_pdq tsnd_pdq
        rcv_pdq prcv_pdq trcv_pdq CRE_PDQ snd_mbf psnd_mbf tsnd_mbf rcv_mbf prcv_mbf trcv_mbf CRE_MBF get_mpl pget_mpl tget_mpl rel_mpl
        CRE_MPL ras_tex iras_tex dis_tex ena_tex sns_tex DEF_TEX sta_ovr ista_ovr stp_ovr istp_ovr DEF_OVR dis_int ena_int chg_ipm get_ipm
        CFG_INT DEF_INH ATT_ISR xsns_dpn xsns_xpn DEF_EXC {acre,del,ref}_{tsk,sem,flg,dtq,mpf,cyc,alm,spn} ini_{sem,flg,dtq,mpf,mtx}
        set_tim get_tim get_utm isig_tim frsm_tsk get_inf dis_wai idis_wai ena_wai iena_wai sns_ker ext_ker ATT_INI ATT_TER TMO_NBLK {get,mget}_{lod,nth}
        {ras,dis,ena,sns}_ter adj_tim fch_hrt {clr,ras,prb}_int CRE_ISR)
    for name in "${names[@]}"; do
        play list "$name" && [ ! -s errors ] && [ "$(cat output)" = "fmpsim has no $name" ] || { each=no && echo "list $name"; }
    done
    count "$each" list '# each name that is left out'
}
