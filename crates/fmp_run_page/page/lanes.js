// The lanes, their labels, and what of them is in view.

const view = { a: 0, k: 1, sel: 0, hover: 0, width: 800, height: 400, lane: null, arrows: true, hits: null, only: false, top: 0, from: null, to: null };
// The groups that are folded, and the lanes that are hidden.
const folded = new Set(), hidden = new Set();
let every = [], lanes = [], total = 0, colors = {}, frame = 0;

function layLanes() {
  lanes = []; total = 0;
  for (const [key, label] of [['proc', 'Processors'], ['task', 'Tasks'], ['obj', 'Objects']]) {
    const list = every.filter(x => x.type === key);
    if (!list.length) continue;
    const seen = list.filter(x => !hidden.has(x.id));
    lanes.push({ type: 'group', key, label: label + ' (' + (seen.length < list.length ? seen.length + ' of ' : '') + list.length + ')', y: total, h: GROUP });
    total += GROUP;
    if (!folded.has(key)) for (const x of seen) { lanes.push({ ...x, y: total, h: HEIGHTS[x.type] }); total += HEIGHTS[x.type]; }
  }
  const box = $('labels');
  box.style.height = Math.max(total, 1) + 'px';
  box.replaceChildren(...lanes.map(lane => {
    const e = lane.e = el(lane.type === 'group' ? 'button' : 'div', lane.type === 'group' ? 'group' : 'lane');
    e.style.top = lane.y + 'px'; e.style.height = lane.h + 'px';
    if (lane.type === 'group') {
      e.textContent = (folded.has(lane.key) ? '+ ' : '- ') + lane.label;
      e.setAttribute('aria-expanded', !folded.has(lane.key));
      e.onclick = () => { folded.has(lane.key) ? folded.delete(lane.key) : folded.add(lane.key); layLanes(); resize(); };
    } else {
      if (lane.type === 'task') { const c = el('i'); c.style.background = hue(lane.t); e.append(c); }
      const hide = el('button', 'hide', String.fromCharCode(215));
      hide.title = 'Hide ' + lane.name + ' (h)'; hide.tabIndex = -1; hide.setAttribute('aria-label', hide.title);
      hide.onclick = press => { press.stopPropagation(); hideLanes([lane.id]); };
      e.append(el('span', 'name', lane.name), lane.now = el('span', 'now'), hide);
      e.onclick = () => chooseLane(view.lane === lane.id ? null : lane.id);
      e.title = lane.name + ': click, then [ and ] go to the previous and the next change, and h hides it';
    }
    return e;
  }));
  $('unhide').hidden = !hidden.size;
  $('unhide').textContent = 'Show ' + hidden.size + ' hidden';
  labels();
}
function chooseLane(id) { view.lane = id; labels(); draw(); }
// The next or previous lane, which comes into view.
function stepLane(by) {
  const list = lanes.filter(lane => lane.id), i = list.findIndex(lane => lane.id === view.lane);
  if (!list.length) return;
  const lane = list[i < 0 ? (by > 0 ? 0 : list.length - 1) : (i + by + list.length) % list.length], box = $('scroll');
  chooseLane(lane.id);
  box.scrollTop = Math.max(lane.y + lane.h - view.height, Math.min(lane.y, box.scrollTop));
  $('say').textContent = lane.name + ': ' + laneWords(lane, view.sel);
}
// Hides lanes. Where the chosen one is among them, the next that is left is chosen.
function hideLanes(ids) {
  const list = lanes.filter(lane => lane.id), i = list.findIndex(lane => lane.id === view.lane), gone = new Set(ids);
  for (const id of ids) hidden.add(id);
  if (gone.has(view.lane)) { const left = [...list.slice(i + 1), ...list.slice(0, i).reverse()].find(lane => !gone.has(lane.id)); view.lane = left ? left.id : null; }
  layLanes(); resize();
  $('say').textContent = hidden.size + (hidden.size === 1 ? ' lane is hidden' : ' lanes are hidden');
}
function unhide() { hidden.clear(); layLanes(); resize(); $('say').textContent = 'All lanes are shown'; }
// Hides the lanes in which nothing changes between the two lines that are measured, or else in what is in view.
function hideStill() {
  const [a, b] = measured() || [Math.max(0, Math.floor(view.a)), Math.min(N, Math.ceil(view.a + span()) - 1)];
  const moves = id => { const s = signals.get(id); return !!s && last(s.n, b) > last(s.n, a); };
  const called = p => last(eventsOf(p), b) > last(eventsOf(p), a);
  const still = lane => lane.type === 'proc' ? !called(lane.p) && !['r', 'l', 'h'].some(letter => moves(letter + lane.p)) : !moves(lane.id) && !moves('w' + lane.id);
  countWaiters();
  const ids = lanes.filter(lane => lane.id && still(lane)).map(lane => lane.id);
  if (ids.length) hideLanes(ids);
}
function laneWords(lane, n) { return lane.type === 'proc' ? procWords(lane.p, n) : lane.type === 'task' ? taskWords(lane.t, n) : objectWords(lane.o, n); }
function shortWords(lane, n) {
  if (lane.type === 'proc') return procWords(lane.p, n, { i: ', request', l: ', locked', d: ', disabled' });
  return lane.type === 'obj' ? lane.o.kind + ' ' + objectWords(lane.o, n) : waitWords(lane.t, n, SHORT) || taskWords(lane.t, n);
}
function labels() {
  for (const lane of lanes) if (lane.now) { lane.now.textContent = shortWords(lane, view.sel); lane.now.title = laneWords(lane, view.sel); lane.e.classList.toggle('on', view.lane === lane.id); }
}
const laneOf = id => lanes.find(l => l.id === id);
let hues = [];
const hue = t => hues[t], makeHue = t => 'hsl(' + (t * 137.5 + 195) % 360 + ' 48% ' + colors.light + ')';
const X = n => (n - view.a) * view.k;
const span = () => view.width / view.k;

function el(tag, name, words) { const e = document.createElement(tag); if (name) e.className = name; if (words !== undefined) e.textContent = words; return e; }
function readColors() {
  const s = getComputedStyle(document.documentElement);
  for (const c of ['bg', 'panel', 'fg', 'mute', 'line', 'grid', 'run', 'ready', 'wait', 'susp', 'req', 'rel', 'bad', 'hit', 'sel', 'hover', 'handler', 'light', 'off']) colors[c] = s.getPropertyValue('--' + c).trim();
  hues = Array.from({ length: model.tasks.length + 1 }, (_, t) => t ? makeHue(t) : colors.susp);
}
function sized(canvas, width, height) {
  const d = window.devicePixelRatio || 1, c = canvas.getContext('2d');
  if (canvas.width !== Math.round(width * d) || canvas.height !== Math.round(height * d)) { canvas.width = Math.round(width * d); canvas.height = Math.round(height * d); }
  c.setTransform(d, 0, 0, d, 0, 0); c.clearRect(0, 0, width, height);
  return c;
}
function resize(width) {
  const paper = document.body.classList.contains('print'), box = $('scroll');
  // what the ruler needs is gone before the rest is measured
  $('ruler').style.height = rulerHeight() + 'px';
  const full = width || box.clientWidth;
  box.style.height = paper ? Math.min(total, PAPER) + 'px' : '';
  const whole = Math.abs(view.k * (N + 1) - view.width) < 2;
  view.full = full; view.width = Math.max(50, full - LABEL);
  if (whole) view.k = view.width / (N + 1);
  view.height = paper ? Math.min(total, PAPER) : box.clientHeight;
  $('ruler').style.width = full + 'px';
  Object.assign($('lanes').style, { width: full + 'px', height: view.height + 'px' });
  $('labels').style.height = Math.max(total, 1) + 'px';
  clamp(); draw(); drawOver(); fill();
}
function clamp() {
  const least = view.width / (N + 1);
  view.k = Math.min(Math.max(view.k, Math.min(least, 140)), Math.max(140, least));
  view.a = Math.max(0, Math.min(view.a, N + 1 - span()));
}
function zoom(by, x = view.width / 2) { const n = view.a + x / view.k; view.k *= by; clamp(); view.a = n - x / view.k; clamp(); draw(); }
function fit() { view.a = 0; view.k = view.width / (N + 1); clamp(); draw(); }
function pan(px) { view.a += px / view.k; clamp(); draw(); }
function draw() { if (!frame) frame = requestAnimationFrame(paint); }
