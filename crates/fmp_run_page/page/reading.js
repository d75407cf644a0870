// What the script reads of the texts, and what holds after a line.
'use strict';
// A trace of fmpsim as a timeline. The four texts before this script are what the program wrote; all else is drawing.
// The script has no quotation mark, no backslash and no byte beyond ASCII, so that it stands in the program as it is.
const $ = id => document.getElementById(id), LF = String.fromCharCode(10), LABEL = 200, ROW = 20;
const PAPER = 560, GROUP = 22, HEIGHTS = { proc: 56, task: 24, obj: 26 };
const KINDS = { sem: 'S', flg: 'F', dtq: 'D', mpf: 'M', cyc: 'C', alm: 'A', spn: 'X' };
const WAITS = { slp: 'asleep', dly: 'delayed', sem: 'waits for semaphore', flg: 'waits for eventflag', sdtq: 'waits to send to', rdtq: 'waits to receive from', mpf: 'waits for a block of' };
const SHORT = { slp: 'asleep', dly: 'delay', sem: 'sem', flg: 'flag', sdtq: 'send', rdtq: 'receive', mpf: 'pool' };
const OF = { sem: 'S', flg: 'F', sdtq: 'D', rdtq: 'D', mpf: 'M' };
const STATES = { '-': 'dormant', r: 'running', y: 'ready', w: 'waiting', s: 'suspended', x: 'waiting, suspended' };
const MEANS = { E_OK: 'done', E_TMOUT: 'the time ran out', E_CTX: 'not allowed in this context', E_ID: 'no such object', E_PAR: 'an argument out of range', E_OBJ: 'not in this state of the object', E_QOVR: 'a count is at its limit', E_ILUSE: 'not used so', E_RLWAI: 'released by force', wait: 'the caller waits', spin: 'the lock is taken: tries again', gone: 'the caller ended', idle: 'nobody is there to make the call', held: 'held back, to be given again' };
// What `taken` and `none` mean of a tick and of an inter-processor interrupt.
const TAKEN = { taken: ['', 'the tick counts', 'takes the pending request'], none: ['', 'counts for nothing: not a tick of the global timer', 'nothing was pending'] };

// ---- the data

const model = { processors: 0, master: 0, tasks: [], objects: [] }, signals = new Map();
let text = '', lines = [], N = 0, gists, events = null, taken = [];
// The lines that were given where the trace has others, by their numbers, and these numbers in order.
const given = new Map();
let differs = [];

function readSetup() {
  for (const line of $('setup').textContent.split(LF)) {
    const [word, name, number] = line.split(' ');
    if (word === 'processors') model.processors = +name;
    else if (word === 'timer') model.master = +name;
    else if (word === 'task') model.tasks.push({ name, priority: +number, id: 's' + (model.tasks.length + 1) });
    else if (KINDS[word]) {
      const n = model.objects.filter(o => o.kind === word).length + 1;
      model.objects.push({ kind: word, name, limit: +number || 0, n, id: KINDS[word] + n });
    }
  }
}

const PARTS = /^([0-9]+) P([0-9]+) ([^ ]+) (tick|ipi|ret_hdr|[a-z_]+[(][^)]*[)]) ([^ ]+)(.*)$/;

// Of the lines only where ticks were taken is found at once.
function readTrace() {
  text = $('trace').textContent;
  lines = text.split(LF);
  N = lines.length - 1;
  gists = new Uint8Array(N + 1);
  for (let p = 0; p <= model.processors; p++) taken.push([]);
  for (let i = text.indexOf(' tick taken'); i >= 0; i = text.indexOf(' tick taken', i + 1)) {
    const [n, p] = text.slice(text.lastIndexOf(LF, i) + 1, i).split(' ');
    taken[+p.slice(1)].push(+n);
  }
}
const line = n => lines[n - 1], parts = n => PARTS.exec(line(n)) || [];

// A line in short, made where it is first asked for: its processor; what its event is, 0 a call, 1 a tick, 2 an interrupt, 3 the return of a handler;
// and what its answer says, 0 done, 1 refused, 2 that the caller waits, 3 that nothing was done.
function gist(n) {
  if (n && !gists[n]) {
    const [, , p, , event, answer] = parts(n), said = answer.startsWith('E_') ? +!answer.startsWith('E_OK') : answer[0] === 'w' ? 2 : 'ihn'.includes(answer[0]) ? 3 : 0;
    gists[n] = p << 4 | Math.max(0, ['', 'tick', 'ipi', 'ret_hdr'].indexOf(event)) << 2 | said;
  }
  return gists[n];
}
const lineP = n => gist(n) >> 4, lineKind = n => gist(n) >> 2 & 3, lineClass = n => gist(n) & 3;
// The lines of a processor.
function eventsOf(p) {
  if (!events) {
    events = taken.map(() => []);
    for (let n = 1; n <= N; n++) events[lineP(n)].push(n);
  }
  return events[p];
}

function readGiven() {
  for (const s of $('given').textContent.split(LF)) if (s) { const blank = s.indexOf(' '); given.set(+s.slice(0, blank), s.slice(blank + 1)); }
  differs = [...given.keys()];
  if (differs.some((n, i) => !(n > (differs[i - 1] || 0) && n <= N))) throw new Error('Lines were given that the trace does not have.');
}

// Texts of values that were read, by sums of their bytes: most values are told again and again.
const pool = new Map(), NUMBERS = Array.from({ length: 256 }, (_, i) => String(i));
function pooled(all, bytes, begin, end, sum) {
  const old = pool.get(sum);
  let i = old === undefined || old.length !== end - begin ? -1 : begin;
  while (i >= 0 && i < end) i = old.charCodeAt(i - begin) === bytes[i] ? i + 1 : -1;
  if (i >= 0) return old;
  const made = all.slice(begin, end);
  pool.set(sum, made);
  return made;
}

// The numbers of the lines at which each value changed, and its texts: of numbers that rarely come again the numbers.
function readChanges() {
  const all = $('changes').textContent, bytes = new TextEncoder().encode(all), found = [];
  let n = -1;
  for (let i = 0, width = 2; i < bytes.length; i++) {
    const letter = bytes[i];
    if (letter === 35) {
      // each line has its number, one more than that before
      if (++n === 10 ** (width - 1)) width++;
      i += width;
      continue;
    }
    let number = 0, sum = 0, value = 0, digits = true;
    for (i++; bytes[i] > 32; i++) number = 10 * number + bytes[i] - 48;
    const begin = ++i, place = 128 * number + letter;
    for (; bytes[i] !== 10; i++) {
      const byte = bytes[i];
      if (byte < 48 || byte > 57) digits = false;
      value = 10 * value + byte - 48; sum = (31 * sum + byte) & 0x3fffffff;
    }
    const signal = found[place] || (found[place] = { n: [], v: [] });
    signal.n.push(n);
    signal.v.push(!digits ? pooled(all, bytes, begin, i, sum) : value < 256 ? NUMBERS[value] : letter === 110 ? value : String(value));
  }
  found.forEach((signal, place) => signals.set(String.fromCharCode(place % 128) + (place >> 7), signal));
  if (n !== N) throw new Error('The states of ' + n + ' lines stand beside ' + N + ' lines.');
}

// What was put into each data queue, at which line, and at which lines a value was taken out of it: from the lines, where it is first asked for.
let queues = null;
function readQueues() {
  const sending = new Map();
  queues = new Map(model.objects.filter(o => o.kind === 'dtq').map(o => [o.name, { values: [], put: [], taken: [] }]));
  for (let n = 1; n <= N; n++) {
    if (!line(n).includes('_dtq(')) continue;
    const [, , , who, event, answer, rest] = parts(n), [, way, name, sent] = /(snd|rcv)_dtq[(]([^,)]*),? ?([^,)]*)/.exec(event), queue = queues.get(name);
    const put = v => { queue.values.push(v); queue.put.push(n); };
    if (answer === 'wait' && way === 'snd') sending.set(who, sent);
    if (!answer.startsWith('E_OK')) continue;
    // What is sent goes to a task that waits for it, or else into the queue, out of which the oldest value may be lost.
    if (way === 'snd' && !rest.includes(' rel=')) put(sent);
    // What is received makes room for what a task sends that waits for that.
    const released = way === 'rcv' && / rel=([^: ]+):E_OK/.exec(rest);
    if (released) put(sending.get(released[1]));
    if (way === 'rcv' || rest.includes(' lost=')) queue.taken.push(n);
  }
}

// How many tasks wait for each object, from the states of the tasks, where it is first asked for.
let counted = false;
function countWaiters() {
  if (counted) return;
  counted = true;
  const steps = new Map(), objects = new Map();
  // the object for which a task in a state waits
  const objectIn = state => {
    if (!objects.has(state)) { const [, kind, number] = state.split(' '); objects.set(state, OF[kind] && number ? OF[kind] + number : null); }
    return objects.get(state);
  };
  for (const task of model.tasks) {
    let old = null;
    const { n, v } = signals.get(task.id);
    // twice the number of the line, and one more where a wait begins
    const step = (id, at) => { if (id) { if (!steps.has(id)) steps.set(id, []); steps.get(id).push(at); } };
    for (let i = 0; i < n.length; i++) {
      const now = objectIn(v[i]);
      if (now === old) continue;
      step(old, 2 * n[i]); step(now, 2 * n[i] + 1);
      old = now;
    }
  }
  for (const [id, list] of steps) {
    const signal = { n: [0], v: ['0'] };
    let sum = 0;
    Float64Array.from(list).sort().forEach((at, i, all) => {
      sum += at % 2 ? 1 : -1;
      if (i + 1 < all.length && all[i + 1] >> 1 === at >> 1) return;
      signal.n.push(at >> 1); signal.v.push(String(sum));
    });
    signals.set('w' + id, signal);
  }
}

const grouped = n => n.toLocaleString('en').replaceAll(',', ' ');

// The index of the last element that is at most x, or -1.
function last(list, x) {
  let low = 0, high = list.length;
  while (low < high) { const mid = (low + high) >> 1; if (list[mid] <= x) low = mid + 1; else high = mid; }
  return low - 1;
}
const value = (id, n) => { const s = signals.get(id); return s ? s.v[Math.max(0, last(s.n, n))] : '-'; };
const changedAt = (id, n) => { const s = signals.get(id), i = s ? last(s.n, n) : -1; return i >= 0 && s.n[i] === n ? i : -1; };
const ticksOf = (p, n) => last(taken[model.master || p], n) + 1;
// The processors whose ticks count.
const clocks = () => model.master ? [model.master] : Array.from({ length: model.processors }, (_, i) => i + 1);
const taskName = t => t > 0 ? model.tasks[t - 1].name : 'idle';
const objectName = id => { const o = model.objects.find(x => x.id === id); return o ? o.name : id; };
const running = (p, n) => +value('r' + p, n);
// The values in a data queue, the oldest first.
function valuesOf(o, n) {
  if (value(o.id, n) === '0') return [];
  if (!queues) readQueues();
  const { values, put, taken } = queues.get(o.name);
  return values.slice(last(taken, n) + 1, last(put, n) + 1);
}
// The ticks that a time event handler has left, or -1 where it is stopped.
function leftOf(o, n) {
  const [p, end] = value(o.id, n).split(' @');
  return end ? end - ticksOf(+p, n) : -1;
}
const ticksLeft = left => left + (left === 1 ? ' tick left' : ' ticks left');

// The state of a task: its letter, and what it waits for, with the ticks left where the wait is timed.
function wait(t, n) {
  const [letter, kind, ...rest] = value('s' + t, n).split(' '), end = rest.length && rest[rest.length - 1][0] === '@' ? +rest.pop().slice(1) : -1;
  return { letter, kind, object: rest.length ? objectName(OF[kind] + rest[0]) : '', left: end < 0 ? -1 : end - ticksOf(+value('a' + t, n).split(' ')[0], n) };
}
function waitWords(t, n, names) {
  const { kind, object, left } = wait(t, n);
  if (!kind) return '';
  return names[kind] + (object ? ' ' + object : '') + (left < 0 ? '' : names === SHORT ? ' ' + left : ', ' + ticksLeft(left));
}
function taskWords(t, n) {
  const letter = value('s' + t, n)[0], words = waitWords(t, n, WAITS);
  return words ? words + (letter === 'x' ? ', suspended' : '') : STATES[letter];
}
// The rest of a task: where it is assigned, its priority, what is queued for it.
function taskRest(t, n) {
  const [assigned, priority, activations, wakeups] = value('a' + t, n).split(' ');
  return !priority ? '' : ' (P' + assigned + ', priority ' + priority + (+activations ? ', ' + activations + ' activation queued' : '') + (+wakeups ? ', ' + wakeups + ' wakeup queued' : '') + ')';
}
function procWords(p, n, flagWords = { i: ', request pending', l: ', CPU locked', d: ', dispatching disabled' }) {
  const flags = value('l' + p, n), due = value('h' + p, n);
  return (due !== '-' ? due.split(',').map(objectName).join(', ') + ' over ' : '') + taskName(running(p, n)) + ['i', 'l', 'd'].map(f => flags.includes(f) ? flagWords[f] : '').join('');
}
function objectWords(o, n) {
  if (!signals.has(o.id)) return '';
  if (n) countWaiters();
  const v = value(o.id, n), w = n && +value('w' + o.id, n) || 0, more = w ? ', ' + w + ' waiting' : '';
  if (o.kind === 'flg') return '0x' + (+v).toString(16) + more;
  if (o.kind === 'cyc' || o.kind === 'alm') { const left = leftOf(o, n); return left < 0 ? 'stopped' : 'started on P' + parseInt(v) + ', ' + ticksLeft(left); }
  if (o.kind === 'spn') return +v ? 'held by P' + v : 'free';
  return v + ' of ' + o.limit + (o.kind === 'mpf' ? ' free' : o.kind === 'dtq' && +v ? ': ' + valuesOf(o, n).join(', ') : '') + more;
}

// The tasks that could run on a processor, in their precedence: by priority, and then by when they became ready or were put last.
function orderOf(p, n) {
  const rank = t => value('a' + t, n).split(' ')[1] * 1e12 + +value('n' + t, n);
  return model.tasks.map((_, i) => i + 1).filter(t => 'ry'.includes(value('s' + t, n)) && value('a' + t, n).split(' ')[0] === String(p)).sort((t, u) => rank(t) - rank(u));
}
const readyOf = (p, n) => orderOf(p, n).filter(t => t !== running(p, n));

// What of an object is not as it was at boot.
const TOLD = { sem: 'count=', flg: 'pattern=', mpf: 'free=', spn: 'held=P' };
function changedWords(o, n) {
  if (o.kind === 'dtq') { const values = valuesOf(o, n); return values.length ? 'values=' + values.join(',') : ''; }
  if (TOLD[o.kind]) return value(o.id, n) === value(o.id, 0) ? '' : TOLD[o.kind] + value(o.id, n);
  const left = leftOf(o, n);
  return left === leftOf(o, 0) ? '' : left < 0 ? 'stopped' : 'left=' + left;
}

// The trace with its states, as `fmpsim calls --state` writes it: what the page shows where its address ends with #states.
function statesText() {
  const out = [], told = (word, number) => number ? ' ' + word + '=' + number : '';
  for (let n = 0; n <= N; n++) {
    if (n) out.push(line(n));
    for (let p = 1; p <= model.processors; p++) {
      const t = running(p, n), ready = readyOf(p, n), flags = value('l' + p, n), due = value('h' + p, n), list = (word, names) => names.length ? ' ' + word + '=' + names.join(',') : '';
      out.push('  P' + p + ' run=' + (t ? taskName(t) : '-') + list('ready', ready.map(taskName)) + (flags.includes('l') ? ' locked' : '') + (flags.includes('d') ? ' disabled' : '') + (flags.includes('i') ? ' latch' : '')
        + list('due', due === '-' ? [] : due.split(',').map(objectName)));
    }
    model.tasks.forEach((task, i) => {
      const { letter, kind, object, left } = wait(i + 1, n), [, priority, activations, wakeups] = value('a' + (i + 1), n).split(' ').map(Number);
      const numbers = letter === '-' ? '' : told('pri', priority === task.priority ? 0 : priority) + told('act', activations) + told('wup', wakeups);
      if ('wsx'.includes(letter) || numbers) out.push('  ' + task.name + ('sx'.includes(letter) ? ' suspended' : '') + (kind ? ' waits ' + kind + (object ? ' ' + object : '') : '') + (left >= 0 ? ' left=' + left : '') + numbers);
    });
    for (const o of model.objects) { const words = changedWords(o, n); if (words) out.push('  ' + o.name + ' ' + words); }
    out.push('  end');
  }
  return out.join(LF) + LF;
}
