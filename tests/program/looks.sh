# What a page draws, and how it answers to keys and the mouse: in a browser, each number worked out by hand.

looks() {
    if ! command -v chromium > /dev/null; then
        left_out 'there is no chromium' view '# what a page draws'
        return
    fi
    labels_apart
    axes
    times_that_run_out
    shares
    lanes_that_are_hidden
    two_lines
    keys
}

# page_of EXAMPLE: the page of an example is looked at from now on.
page_of() {
    play view "$top/examples/$1/machine.cfg" "$top/examples/$1/trace.txt"
    mv output page.html
}

# One task that delays itself, another that suspends it meanwhile; a wait of one tick is over at the second one.
delayed() {
    printf '%s\n' 'PROCESSORS(1);' 'DEF_CLASS(C, 1, {1});' 'CLASS(C) {' 'CRE_TSK(T, {TA_ACT, 0, main, 3, 4096, NULL});' \
        'CRE_TSK(U, {TA_ACT, 0, main, 4, 4096, NULL});' '}' > delay.cfg
    printf '%s\n' '1 P1 T dly_tsk(1) wait run=U' '2 P1 U sus_tsk(T) E_OK' '3 P1 U rsm_tsk(T) E_OK' '4 P1 U tick taken' '5 P1 U tick taken rel=T:E_OK run=T' \
        | head -n "$1" > delay.txt
    play view delay.cfg delay.txt
    mv output page.html
}

# looked PLACE SCRIPT WHAT: the page, at this place, finds what stands on standard input where this script is played in it.
looked() {
    local well=yes
    {
        sed '/<head>/q' page.html && echo '<script>' && cat "$top/tests/program/looks.js"
        printf 'played.push(say => {\n%s\n});\n</script>\n' "$2" && sed '1,/<head>/d' page.html
    } > played.html
    browsed played.html "$1" --window-size=1500,800 | sed -n '/<pre>/,/<\/pre>/p' | sed 's/.*<pre>//; /<\/pre>/d; s/&lt;/</g; s/&gt;/>/g; s/&amp;/\&/g' > found
    diff - found || well=no
    count "$well" view "# $3"
}

# At each scale no text lies over another, and none over the mark of an event or a tick. The arrows, which cross all, are not drawn meanwhile.
labels_apart() {
    local name words=() scales="
press('a');
const look = () => { paint(); const found = overlaps(); say(found.length, found.slice(0, 5).join(', ')); };
look(); for (const key of '++++++------') { press(key); look(); }"
    for name in log-to-six-events four-processors scripted-cyclic whole-configuration; do
        page_of "$name"
        yes '0 ' | head -n 13 | looked '' "$scales" "labels of $name"
    done
    # ticks of two processors in one line after the other, up to a thousand of each, and calls between them
    printf '%s\n' 'PROCESSORS(2);' 'DEF_CLASS(C, 1, {1, 2});' 'DEF_CLASS(D, 2, {1, 2});' 'CLASS(C) {' 'CRE_TSK(T, {TA_ACT, 0, main, 3, 4096, NULL});' \
        'CRE_SEM(S, {TA_NULL, 0, 100});' '}' 'CLASS(D) {' 'CRE_TSK(U, {TA_ACT, 0, main, 4, 4096, NULL});' '}' > many.cfg
    awk 'BEGIN { for (i = 0; i < 1000; i++) { print "P1 tick"; print "P2 tick"; if (i % 3 == 0) print "P1 sig_sem(S)"; if (i % 7 == 0) print "P2 wai_sem(S)" } }' > many.txt
    play calls many.cfg many.txt && mv output trace.txt
    play view many.cfg trace.txt && mv output page.html
    yes '0 ' | head -n 13 | looked '' "$scales" 'labels of many ticks'
    yes '0 ' | head -n 13 | looked '#2400' "view.k = 140; view.a = 2200; clamp(); $scales" 'labels of many ticks, from near'
}

# The numbers of lines, and below them those of the ticks of each processor that took some, each at its line.
axes() {
    page_of producer-consumer
    looked '' "
paint(); say(textsOf(\$('ruler')).join(' '));
const boxes = drawn.get(\$('ruler')).filter(x => x.kind === 'text' && x.top > 18 && x.left > LABEL);
for (const x of boxes) say(x.text, 'at', Math.floor(view.a + (x.left - LABEL) / view.k));
say(performance.getEntriesByType('resource').length);" 'its axes' << 'END'
line of the trace ticks of P2 boot 1 2 3 4 5 6 7 8 9 10 11 12 13 14 15 1 2
1 at 14
2 at 15
0
END
    page_of scripted-cyclic
    looked '#3' "
paint(); say(textsOf(\$('ruler')).join(' '));
for (const key of ['j', 'h']) press(key);
paint(); say(textsOf(\$('ruler')).filter(s => s.startsWith('ticks')).join(' '));
for (const key of ['h']) press(key);
paint(); say(textsOf(\$('ruler'))[1]);" 'its axes' << 'END'
line of the trace ticks of P1 ticks of P2 3 boot 1 2 4 5 6 7 8 9 10 11 12 13 14 15 16 17 1 2 3 4 1 2 3 4
ticks of P2
no ticks
END
    sed 's/PROCESSORS(2);/&\nTIMER(GLOBAL, 2);/' many.cfg > global.cfg
    printf 'P2 tick\nP1 tick\nP1 get_tid()\nP2 tick\n' > few.txt
    play calls global.cfg few.txt && mv output trace.txt
    play view global.cfg trace.txt && mv output page.html
    looked '' "paint(); say(textsOf(\$('ruler')).join(' ')); press('m'); press('End'); say(\$('measured').textContent);" 'its axis of a global timer' << 'END'
line of the trace ticks of P2, for all boot 1 2 3 4 1 2
boot to 4: 4 lines, 2 ticks
END
}

# What led to a line and what came of it: where time runs out, the call that began to wait.
times_that_run_out() {
    local told="
const look = n => { select(n); detail(); for (const p of document.querySelectorAll('#detail p')) if (p.querySelector('.go')) say(n + ':', p.textContent); };"
    page_of producer-consumer
    looked '' "$told
[1, 5, 7, 13, 14, 15].forEach(look); say(document.querySelector('#detail p').textContent);" 'why and what came of it' << 'END'
1: line 2 ends the wait of CONSUMER
5: line 7 ends the wait of PRODUCER
7: line 8 P1 takes the request
7: line 8 PRODUCER runs
13: line 15 the time runs out for which CONSUMER waits
15: line 13 begins the wait of CONSUMER, whose time runs out here: waits to receive from SAMPLES, 2 ticks left
On P2 nobody runs; taken: the tick counts
END
    page_of shrink-timeout
    looked '' "$told
[10, 13, 18].forEach(look);" 'a sleep whose time runs out' << 'END'
10: line 18 the time runs out for which WORKER waits
18: line 10 begins the wait of WORKER, whose time runs out here: asleep, 3 ticks left
END
    # a task that is suspended while it waits has one wait
    delayed 5
    looked '' "$told
[1, 2, 3, 4, 5].forEach(look);" 'a delay' << 'END'
1: line 5 the time runs out for which T waits
5: line 1 begins the wait of T, whose time runs out here: delayed, 2 ticks left
END
}

# How much of the lines each task ran, waited and was ready, and the longest of these.
shares() {
    local table="
const look = () => { press('p'); for (const r of document.querySelectorAll('#shares tr')) if (r.querySelector('td')) say([...r.children].map(x => x.textContent).join(' | ')); press('p'); };"
    page_of producer-consumer
    looked '' "$table
look(); select(13); press('m'); select(5); press('m'); look(); say(\$('shares').open); press('p');
document.querySelector('#shares .go').click(); say(view.sel, view.lane, \$('shares').open);" 'shares' << 'END'
PRODUCER | 12 (80.0%) | 1 (6.7%) | 2 (13.3%) | 0 (0.0%) | 0 (0.0%) | 2 lines, 0 ticks: 5 to 7, send SAMPLES | 1 line, 0 ticks: 7 to 8
CONSUMER | 8 (53.3%) | 4 (26.7%) | 3 (20.0%) | 0 (0.0%) | 0 (0.0%) | 2 lines, 2 ticks: 13 to 15, receive SAMPLES | 4 lines, 0 ticks: 2 to 6
P1 | 12 (80.0%) | 3 (20.0%) | 0 (0.0%) | 0 (0.0%) | 0
P2 | 8 (53.3%) | 7 (46.7%) | 0 (0.0%) | 0 (0.0%) | 2
PRODUCER | 5 (62.5%) | 1 (12.5%) | 2 (25.0%) | 0 (0.0%) | 0 (0.0%) | 2 lines, 0 ticks: 5 to 7, send SAMPLES | 1 line, 0 ticks: 7 to 8
CONSUMER | 7 (87.5%) | 1 (12.5%) | 0 (0.0%) | 0 (0.0%) | 0 (0.0%) | - | 1 line, 0 ticks: 5 to 6
P1 | 5 (62.5%) | 3 (37.5%) | 0 (0.0%) | 0 (0.0%) | 0
P2 | 7 (87.5%) | 1 (12.5%) | 0 (0.0%) | 0 (0.0%) | 0
false
5 s1 false
END
    page_of scripted-cyclic
    looked '' "$table look();" 'shares with a handler' << 'END'
WORKER | 5 (29.4%) | 3 (17.6%) | 9 (52.9%) | 0 (0.0%) | 0 (0.0%) | 7 lines, 2 ticks: 7 to 14, asleep | 2 lines, 0 ticks: 14 to 16
P1 | 0 (0.0%) | 17 (100.0%) | 8 (47.1%) | 0 (0.0%) | 4
P2 | 5 (29.4%) | 12 (70.6%) | 0 (0.0%) | 0 (0.0%) | 4
END
    # T still waits at the end
    delayed 4
    looked '' "$table look();" 'shares of a task that still waits' << 'END'
T | 1 (25.0%) | 0 (0.0%) | 3 (75.0%) | 0 (0.0%) | 0 (0.0%) | 3 lines, 1 tick: 1 to 4, delay, still | -
U | 3 (75.0%) | 1 (25.0%) | 0 (0.0%) | 0 (0.0%) | 0 (0.0%) | - | 1 line, 0 ticks: boot to 1
P1 | 4 (100.0%) | 0 (0.0%) | 0 (0.0%) | 0 (0.0%) | 1
END
}

# Lanes are hidden by key and by mouse, nothing of them is drawn then, and they come back.
lanes_that_are_hidden() {
    page_of producer-consumer
    looked '' "
const look = () => { paint(); say([...document.querySelectorAll('#labels .name')].map(x => x.textContent).join(' ') + ';', view.lane + ';',
    document.querySelector('#labels .group').textContent + ';', \$('unhide').hidden ? '' : \$('unhide').textContent + ';', textsOf(kept).includes('rcv_dtq(SAMPLES)')); };
look(); for (const key of 'jjh') press(key);
look(); press('k'); press('h'); look(); press('H'); look();
document.querySelector('.lane[title^=PRODUCER] .hide').click(); look(); \$('unhide').click(); look();
select(2); press('m'); select(4); press('m'); press('o'); look();" 'lanes that are hidden' << 'END'
P1 P2 PRODUCER CONSUMER SAMPLES; null; - Processors (2);  true
P1 PRODUCER CONSUMER SAMPLES; s1; - Processors (1 of 2); Show 1 hidden; false
PRODUCER CONSUMER SAMPLES; s1; - Processors (0 of 2); Show 2 hidden; false
P1 P2 PRODUCER CONSUMER SAMPLES; s1; - Processors (2);  true
P1 P2 CONSUMER SAMPLES; s2; - Processors (2); Show 1 hidden; true
P1 P2 PRODUCER CONSUMER SAMPLES; s2; - Processors (2);  true
P1 SAMPLES; D1; - Processors (1 of 2); Show 3 hidden; false
END
}

# Between two lines there are so many lines and ticks.
two_lines() {
    page_of producer-consumer
    looked '#5' "
const look = () => say(\$('measuring').hidden ? 'nothing' : \$('measured').textContent);
look(); press('m'); look(); press('End'); look(); press('m'); press('Home'); look(); press('M'); look();
select(13); document.getElementById('row14').dispatchEvent(new MouseEvent('click', { bubbles: true, shiftKey: true })); look(); say(view.sel);
document.getElementById('row3').click(); look(); \$('measure').click(); look(); press('Home'); look(); \$('unmeasure').click(); look();
select(15); const box = \$('lanes').getBoundingClientRect(), at = { bubbles: true, button: 0, shiftKey: true, clientX: box.left + LABEL + X(7) + 5, clientY: box.top + 40 };
\$('lanes').setPointerCapture = () => {}; \$('lanes').dispatchEvent(new PointerEvent('pointerdown', at)); \$('lanes').dispatchEvent(new PointerEvent('pointerup', at)); look();" \
        'two lines' << 'END'
nothing
5 to 5: 0 lines, ticks: P1 0, P2 0
5 to 15: 10 lines, ticks: P1 0, P2 2
5 to 15: 10 lines, ticks: P1 0, P2 2
nothing
13 to 14: 1 line, ticks: P1 0, P2 1
14
13 to 14: 1 line, ticks: P1 0, P2 1
3 to 3: 0 lines, ticks: P1 0, P2 0
boot to 3: 3 lines, ticks: P1 0, P2 0
nothing
7 to 15: 8 lines, ticks: P1 0, P2 2
END
    delayed 5
    looked '#4' "press('m'); press('Home'); say(\$('measured').textContent);" 'two lines of one processor' << 'END'
boot to 4: 4 lines, 1 tick
END
}

# Each key does what the legend says.
keys() {
    page_of producer-consumer
    looked '' "
const sel = (...keys) => { for (const key of keys) press(key); return view.sel; };
say(sel('ArrowRight'), sel('ArrowDown'), sel('ArrowLeft'), sel('ArrowUp'), sel('End'), sel('PageUp') < 15, sel('Home'), sel('PageDown') > 1);
press('Home'); press('ArrowRight', { shiftKey: true }); say(view.sel);
press('/'); say(document.activeElement.id); \$('query').value = 'tick'; search(); \$('list').focus();
say(sel('n'), sel('n'), sel('n'), sel('N')); \$('query').value = ''; search();
for (const key of ['+', '-', '=', '0', 'w', 's']) { press(key); say(key, Math.round(view.k * (N + 1) / view.width * 100)); }
press('Home'); for (const key of '+++') press(key);
const a = view.a; press('d'); say(view.a > a); press('q'); say(Math.abs(view.a - a) < 1e-6);
press('a'); say(view.arrows); const theme = document.documentElement.dataset.theme; press('t'); say(theme !== document.documentElement.dataset.theme);
press('?'); say(\$('legend').open, \$('legend').textContent.includes('longest waits')); press('m'); say(String(view.from)); press('?'); say(\$('legend').open);
press('Home'); press('j'); say(view.lane, sel(']'), sel(']'), sel('['), sel('j', 'j', ']'), sel('k', 'k', ']'));" 'its keys' << 'END'
1 2 1 0 15 true 0 true
10
query
14 15 14 15
+ 160
- 100
= 160
0 100
w 130
s 100
true
true
false
true
true true
null
false
r1 5 8 5 7 8
END
}
