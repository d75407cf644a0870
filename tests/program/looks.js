// What a test plays in a page: it stands before the page's own script, and sees where that one draws texts and marks.
'use strict';
const drawn = new Map(), paths = new WeakMap();
{
  const proto = CanvasRenderingContext2D.prototype;
  const boxesOf = context => { if (!drawn.has(context.canvas)) drawn.set(context.canvas, []); return drawn.get(context.canvas); };
  const before = (name, f) => { const old = proto[name]; proto[name] = function (...words) { f(this, ...words); return old.apply(this, words); }; };
  const put = (context, kind, text, left, top, right, bottom) => {
    const { a, d, e, f } = context.getTransform();
    boxesOf(context).push({ kind, text, left: left * a + e, right: right * a + e, top: top * d + f, bottom: bottom * d + f });
  };
  before('clearRect', context => drawn.set(context.canvas, []));
  before('fillText', (context, text, x, y) => {
    const m = context.measureText(text);
    put(context, 'text', text, x - m.actualBoundingBoxLeft, y - m.actualBoundingBoxAscent, x + m.actualBoundingBoxRight, y + m.actualBoundingBoxDescent);
  });
  // a path that is filled and small is a mark
  before('beginPath', context => paths.set(context, []));
  for (const name of ['moveTo', 'lineTo']) before(name, (context, x, y) => paths.get(context).push([x, y]));
  before('arc', (context, x, y, r) => paths.get(context).push([x - r, y - r], [x + r, y + r]));
  for (const name of ['fill', 'stroke']) before(name, context => {
    const path = paths.get(context), xs = path.map(p => p[0]), ys = path.map(p => p[1]);
    const [left, right, top, bottom] = [Math.min(...xs), Math.max(...xs), Math.min(...ys), Math.max(...ys)];
    if (right - left <= 12 && bottom - top <= 12) put(context, 'mark', '', left, top, right, bottom);
  });
}
// The texts that lie over another one, or over a mark, of what was drawn last.
function overlaps() {
  const found = [];
  for (const boxes of drawn.values()) boxes.forEach((x, i) => {
    for (const [j, y] of boxes.entries()) {
      if (x.kind !== 'text' || (y.kind === 'text' && j <= i)) continue;
      if (x.left < y.right && y.left < x.right && x.top < y.bottom && y.top < x.bottom) found.push('[' + x.text + '] [' + (y.text || y.kind) + ']');
    }
  });
  return found;
}
const textsOf = canvas => (drawn.get(canvas) || []).filter(x => x.kind === 'text').map(x => x.text);
const press = (key, more = {}) => document.dispatchEvent(new KeyboardEvent('keydown', { key, bubbles: true, cancelable: true, ...more }));
// What is played once the page was drawn, and what it finds.
const played = [];
addEventListener('load', () => {
  const out = [], say = (...words) => out.push(words.join(' '));
  try { for (const f of played) f(say); } catch (e) { say('ERROR ' + e.message); }
  document.body.replaceChildren(Object.assign(document.createElement('pre'), { textContent: out.join('\n') + '\n' }));
});
