# Each request of the library for memory refused in turn: a library of C counts them, and refuses one.

# The program of Rattle's own compiler makes the same requests.
refused_growth() {
    local whole=$top/examples/whole-configuration order=$top/examples/explore-lock-order
    if [ "$kind" = by-rattle ]; then
        left_out 'its requests for memory are not what is tried' '# eight runs in which each is refused in turn'
        return
    fi
    if ! command -v cc > cc_is_here; then
        left_out 'there is no compiler of C (cc)' '# eight runs in which each request for memory is refused in turn'
        return
    fi
    make_refusing || { count no '# each request for memory refused in turn' && return; }
    echo yes > verdict.txt
    echo never > never.txt
    refused_in_turn "$late/trace.txt" calls "$late/machine.cfg" "$late/events.txt"
    refused_in_turn "$whole/trace.txt" calls "$whole/machine.cfg" "$whole/events.txt"
    refused_in_turn verdict.txt check "$late/machine.cfg" "$late/trace.txt"
    refused_in_turn "$spin/trace.txt" smp "$spin/machine.cfg" "$spin/scripts.txt" --ticks 1 --turns 100 --seed 11
    refused_in_turn "$late/trace.vcd" wave "$late/machine.cfg" "$late/trace.txt"
    refused_in_turn "$late/trace.gtkw" wave --gtkw "$late/machine.cfg"
    # it finds 47 places, so its table grows, and the list of them
    refused_in_turn never.txt explore "$order/machine.cfg" "$order/scripts.txt" --ticks 0 --turns 100 --find E_PAR
    refused_in_turn threads smp "$spin/machine.cfg" "$spin/scripts.txt" --ticks 0 --turns 6
}

# refused_in_turn TEXT WORD..: with the first request for memory refused, then with the second one, and so on until none is: each run
# writes this text, or whole lines of its beginning and that memory ran out; or, if it is the answer of a search, that
# there was no memory for more places, behind `not within N`. The last one writes the text. Where it is `threads`
# the run may write any trace that `check` says yes to, with the machine of the second word, and else nothing.
refused_in_turn() {
    local n=0 ended told=0 wanting=0 well=yes
    while n=$((n + 1)) && : > output && rm -f met; do
        (REFUSE=$n LD_PRELOAD=$PWD/refuse.so exec "$program" "${@:2}") < /dev/null > output 2> errors
        ended=$?
        [ -e met ] || break
        if [ "$ended" = 4 ]; then
            told=$((told + 1))
            grep -qxE 'fmpsim: (.*want of memory|no thread could be started)' errors && [ "$(wc -l < errors)" = 1 ] || well=no
            [ ! -s output ] || head -n "$(wc -l < output)" "$1" | cmp - output || well=no
        elif [ "$ended" = 6 ] && [ "$1" = never.txt ]; then
            wanting=$((wanting + 1))
            is_wanting || well=no
        else
            is_whole "$@" || well=no
        fi
    done
    is_whole "$@" && [ "$told" -ge 20 ] || well=no
    [ "$1" != never.txt ] || [ "$wanting" -ge 2 ] || well=no
    count "$well" "${@:2}" '# each request for memory refused in turn'
}

# is_wanting: the search that just ended had no memory for more places.
is_wanting() {
    [[ "$(cat output)" =~ ^not\ within\ [0-9]+$ ]] && ! grep -qv '^fmpsim: question: ' errors \
        && grep -qE '^fmpsim: question: places found: [0-9]+, all for which there was memory; ' errors
}

# is_whole TEXT WORD..: the run of these words that just ended wrote all that it has to. What a search says beside its answer may be missing.
is_whole() {
    sed -i '/^fmpsim: question: /d' errors
    [ ! -s errors ] || return 1
    if [ "$1" = threads ]; then
        [ "$ended" = 0 ] || [ "$ended" = 6 ] && "$program" check "$3" output | grep -qx yes
    else
        [ "$ended" = 0 ] && cmp "$1" output
    fi
}

# Makes the library, refuse.so.
make_refusing() {
    cc -shared -fPIC -O1 -o refuse.so -xc - << 'END'
#define _GNU_SOURCE
#include <errno.h>
#include <fcntl.h>
#include <stdlib.h>
#include <unistd.h>
static int refuses(void) {
    static int asked;
    const char *turn = getenv("REFUSE");
    if (turn == NULL || __atomic_add_fetch(&asked, 1, __ATOMIC_SEQ_CST) != atoi(turn)) return 0;
    close(open("met", O_CREAT | O_WRONLY, 0600));
    errno = ENOMEM;
    return 1;
}
void *__libc_malloc(size_t), *__libc_calloc(size_t, size_t), *__libc_realloc(void *, size_t), *__libc_memalign(size_t, size_t);
void *malloc(size_t n) { return refuses() ? NULL : __libc_malloc(n); }
void *calloc(size_t n, size_t m) { return refuses() ? NULL : __libc_calloc(n, m); }
void *realloc(void *p, size_t n) { return refuses() ? NULL : __libc_realloc(p, n); }
void *aligned_alloc(size_t a, size_t n) { return refuses() ? NULL : __libc_memalign(a, n); }
int posix_memalign(void **p, size_t a, size_t n) { return refuses() || !(*p = __libc_memalign(a, n)) ? ENOMEM : 0; }
END
}
