// The time line: a canvas with one lane a subject.

const LANES = [['seconds', 22], ['load', 28], ['screens', 28], ['uploads', 18], ['operator', 18], ['differences', 18], ['gaps', 16]];
const LEFT = 106, RIGHT = 14, OVERHANG = 12, NEAR = 6, LEAST_VIEW = 2000;
const TEXT = '#c9d1d8', DIM = '#8b959e', RULE = '#2c3238', DARK = '#0d0f11';
const canvas = $('timeline'), pen = canvas.getContext('2d');
const view = { from: 0, to: 1 };
const lanes = new Map();
let hand = null;        // what the pointer does: { way: 'scrub' or 'zoom', from, to }
let isDrawn = true;

const widthOfView = () => Math.max(1, canvas.clientWidth - LEFT - RIGHT);
const xOf = at => LEFT + (at - view.from) / (view.to - view.from) * widthOfView();
const timeOf = x => view.from + (x - LEFT) / widthOfView() * (view.to - view.from);

// ---- the part that is seen

function see(from, to) {
  const whole = Math.max(model.end - model.start, SECOND), margin = whole * 0.01;
  const width = Math.min(Math.max(to - from, LEAST_VIEW), whole + 2 * margin);
  view.from = Math.min(Math.max(from, model.start - margin), model.start + whole + margin - width);
  view.to = view.from + width;
  redraw();
}

const seeAll = () => see(-Infinity, Infinity);
const seeMoved = by => see(view.from + by, view.to + by);

function zoom(factor, x) {
  const at = timeOf(x);
  see(at - (at - view.from) * factor, at + (view.to - at) * factor);
}

function followCursor() {
  const width = view.to - view.from;
  if (cursor.at < view.from || cursor.at > view.to) see(cursor.at - width / 2, cursor.at + width / 2);
  redraw();
}

// ---- drawing

function redraw() {
  if (!isDrawn) return;
  isDrawn = false;
  requestAnimationFrame(() => { isDrawn = true; drawTimeline(); });
}

function measureLanes() {
  let top = 0;
  for (const [name, height] of LANES) {
    lanes.set(name, { name, top, height });
    top += height;
  }
  canvas.style.height = `${top}px`;
  const ratio = devicePixelRatio;
  canvas.width = Math.round(canvas.clientWidth * ratio);
  canvas.height = Math.round(top * ratio);
  pen.setTransform(ratio, 0, 0, ratio, 0, 0);
  return top;
}

function drawTimeline() {
  const height = measureLanes();
  pen.clearRect(0, 0, canvas.clientWidth, height);
  pen.font = '13px system-ui, sans-serif';
  pen.textBaseline = 'middle';
  drawLaneNames();
  pen.save();
  pen.beginPath();
  pen.rect(LEFT - OVERHANG, 0, widthOfView() + OVERHANG + RIGHT, height);
  pen.clip();
  drawSeconds(height);
  drawLoad();
  drawScreens();
  drawHand(height);
  drawCursor(height);
  drawMarks();
  pen.restore();
}

function drawLaneNames() {
  pen.textAlign = 'right';
  for (const { name, top, height } of lanes.values()) {
    pen.fillStyle = RULE;
    if (top > 0) pen.fillRect(0, top, canvas.clientWidth, 1);
    pen.fillStyle = DIM;
    pen.fillText(name, LEFT - OVERHANG - 4, top + height / 2 + 1);
  }
}

// The distance of the marks of the axis: 1, 2 or 5 times a power of ten of seconds, at least 80 pixels.
function distanceOfMarks() {
  const least = (view.to - view.from) / SECOND * 80 / widthOfView(), power = 10 ** Math.floor(Math.log10(least));
  return [1, 2, 5, 10].map(each => each * power).find(each => each >= least * 0.999);
}

function drawSeconds(height) {
  const distance = distanceOfMarks(), digits = Math.max(0, -Math.floor(Math.log10(distance) + 0.001));
  const first = Math.ceil((view.from - model.origin) / SECOND / distance);
  pen.textAlign = 'center';
  for (let k = first; k * distance * SECOND + model.origin <= view.to; k += 1) {
    const x = Math.round(xOf(k * distance * SECOND + model.origin));
    pen.fillStyle = RULE;
    pen.fillRect(x, 18, 1, height);
    pen.fillStyle = TEXT;
    pen.fillText((k * distance).toFixed(digits), x, 10);
  }
}

function drawLoad() {
  const { top, height } = lanes.get('load'), most = Math.max(1, model.busiest?.bits ?? 1);
  for (const { start, from, bits } of model.seconds) {
    const x = xOf(from), width = Math.max(1, xOf(from + SECOND) - x - 1), tall = Math.max(1, bits / most * (height - 4));
    pen.fillStyle = start === model.busiest?.start ? LOOKS.warn : '#5f7385';
    pen.fillRect(x, top + height - tall, width, tall);
  }
}

// A mask is a part of the band for as long as it was shown, with a line where its screen changed. Neighbours differ in shade.
function drawScreens() {
  const { top, height } = lanes.get('screens');
  for (const mask of model.masks) {
    const x = Math.max(0, xOf(mask.from)), end = Math.min(canvas.clientWidth, xOf(mask.to));
    if (end < x) continue;
    paintMask(mask, x, top + 3, Math.max(1, end - x), height - 6);
    drawChanges(mask, top + 3, height - 6);
    drawMaskName(mask, Math.max(LEFT, x) + 6, end, top + height / 2 + 1);
  }
}

function paintMask({ set, isDark }, ...place) {
  for (const colour of [colourOfSet(set), ...isDark ? ['#00000038'] : []]) {
    pen.fillStyle = colour;
    pen.fillRect(...place);
  }
}

// Draws the places where the screen changed, if there is room between them.
function drawChanges({ screens }, y, height) {
  let last = xOf(screens[0].from);
  pen.fillStyle = '#1c2024';
  for (const { from } of screens.slice(1)) {
    const x = xOf(from);
    if (x - last > 4) pen.fillRect(x, y, 1, height);
    last = x;
  }
}

// Writes a mask into its part, on a ground of its own above the lines.
function drawMaskName(mask, x, end, y) {
  const name = mask.set === null ? 'none' : `${mask.set}: ${mask.mask}`, width = pen.measureText(name).width;
  if (Math.min(end, LEFT + widthOfView()) - x < width + 4) return;
  paintMask(mask, x - 3, y - 9, width + 6, 17);
  pen.textAlign = 'left';
  pen.fillStyle = mask.set === null ? DIM : DARK;
  pen.fillText(name, x, y);
}

function drawMarks() {
  let last = '';
  for (const mark of marks) {
    if (mark.to < view.from || mark.from > view.to) continue;
    const { top, height } = lanes.get(mark.lane), x = xOf(mark.from), width = xOf(mark.to) - x;
    const place = `${mark.lane} ${mark.look} ${mark.shape} ${Math.round(x)} ${Math.round(width)}`;
    if (place !== last) DRAW[mark.shape](x, top + 3, Math.max(4, width), height - 5, LOOKS[mark.look]);
    last = place;
  }
}

const DRAW = {
  span: (x, y, width, height, colour) => { pen.fillStyle = colour; pen.fillRect(x, y, width, height); },
  tick: (x, y, width, height, colour) => { pen.fillStyle = colour; pen.fillRect(x - 1.5, y, 3, height); },
  cross: (x, y, width, height, colour) => {
    pen.strokeStyle = colour;
    pen.lineWidth = 2.5;
    pen.beginPath();
    for (const way of [1, -1]) {
      pen.moveTo(x - 5, y + height / 2 - 5 * way);
      pen.lineTo(x + 5, y + height / 2 + 5 * way);
    }
    pen.stroke();
  },
  gap: (x, y, width, height, colour) => {
    pen.save();
    pen.beginPath();
    pen.rect(x, y, width, height);
    pen.clip();
    pen.strokeStyle = colour;
    pen.lineWidth = 1.5;
    pen.strokeRect(x, y, width, height);
    pen.beginPath();
    for (let k = Math.max(x, 0) - height; k < Math.min(x + width, canvas.clientWidth); k += 7) {
      pen.moveTo(k, y + height);
      pen.lineTo(k + height, y);
    }
    pen.stroke();
    pen.restore();
  },
};

function drawHand(height) {
  if (hand?.way !== 'zoom') return;
  pen.fillStyle = '#5fb0ff44';
  pen.fillRect(Math.min(hand.from, hand.to), 0, Math.abs(hand.to - hand.from), height);
}

function drawCursor(height) {
  const x = Math.round(xOf(cursor.at));
  pen.fillStyle = '#ffffff';
  pen.fillRect(x - 1, 0, 2, height);
  pen.beginPath();
  pen.moveTo(x - 6, 0);
  pen.lineTo(x + 6, 0);
  pen.lineTo(x, 8);
  pen.fill();
}

// ---- the pointer

const laneAt = y => [...lanes.values()].find(({ top, height }) => y >= top && y < top + height)?.name ?? null;
const distanceTo = (mark, x) => Math.max(0, xOf(mark.from) - x, x - xOf(mark.to));

// The mark of a lane that is nearest to a place, if it is near.
function markAt(lane, x) {
  const near = marks.filter(mark => mark.lane === lane && distanceTo(mark, x) <= NEAR);
  return near.sort((one, other) => distanceTo(one, x) - distanceTo(other, x))[0] ?? null;
}

function wordsAt(lane, x) {
  const at = timeOf(x);
  if (lane === 'load') {
    const second = model.seconds.find(({ from }) => at >= from && at < from + SECOND);
    return second ? `${seconds(second.start)} s: ${wordsOfSecond(second)}` : `${seconds(at)} s: no frame`;
  }
  if (lane === 'screens') return wordsOfScreen(screenAt(indexOfTime(at)));
  return markAt(lane, x)?.text ?? `${seconds(at)} s`;
}

function wordsOfSecond({ start, load, frames }) {
  const words = [plural(frames, 'frame'), ...load === null ? [] : [`load at least ${(load / 10).toFixed(1)} %`]];
  return [...words, ...start === model.busiest?.start ? ['the busiest second'] : []].join(', ');
}

function showTip(event) {
  const tip = $('tip'), isInside = event.offsetX >= LEFT;
  tip.hidden = !isInside;
  if (!isInside) return;
  tip.textContent = wordsAt(laneAt(event.offsetY), event.offsetX);
  tip.style.left = `${Math.max(4, Math.min(event.offsetX + 14, canvas.clientWidth - tip.offsetWidth - 4))}px`;
  tip.style.top = `${event.offsetY + 20}px`;
}

function beginDrag(event) {
  if (event.button !== 0) return;
  const way = laneAt(event.offsetY) === 'seconds' ? 'zoom' : 'scrub';
  hand = { way, from: event.offsetX, to: event.offsetX };
  canvas.setPointerCapture(event.pointerId);
  const mark = markAt(laneAt(event.offsetY), event.offsetX);
  if (mark) moveTo(mark.index); else if (way === 'scrub') moveToTime(timeOf(event.offsetX));
}

function drag(event) {
  showTip(event);
  if (hand === null) return;
  hand.to = Math.max(LEFT, event.offsetX);
  if (hand.way === 'scrub' && Math.abs(hand.to - hand.from) > 2) moveToTime(timeOf(hand.to));
  redraw();
}

function endDrag() {
  if (hand?.way === 'zoom') {
    const [from, to] = [hand.from, hand.to].sort((one, other) => one - other);
    if (to - from > NEAR) see(timeOf(from), timeOf(to)); else moveToTime(timeOf(from));
  }
  hand = null;
  redraw();
}

function turnWheel(event) {
  event.preventDefault();
  const sideways = event.shiftKey ? event.deltaY || event.deltaX : event.deltaX;
  if (sideways !== 0) seeMoved(sideways / widthOfView() * (view.to - view.from));
  else zoom(1.0015 ** event.deltaY, Math.max(LEFT, event.offsetX));
}

function startTimeline() {
  canvas.addEventListener('pointerdown', beginDrag);
  canvas.addEventListener('pointermove', drag);
  canvas.addEventListener('pointerup', endDrag);
  canvas.addEventListener('pointercancel', endDrag);
  canvas.addEventListener('pointerleave', () => { $('tip').hidden = true; });
  canvas.addEventListener('dblclick', seeAll);
  canvas.addEventListener('wheel', turnWheel, { passive: false });
  new ResizeObserver(redraw).observe(canvas);
  whenMoved(followCursor);
  seeAll();
}
