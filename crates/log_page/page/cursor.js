// The cursor: a line of the log, and the time of the moment. It is moved by keys, by clicks, and by itself while it plays.

const cursor = { index: 0, at: model.start, isPlaying: false, speed: 1 };
const watchers = [];

const whenMoved = watcher => watchers.push(watcher);

function moveTo(index, at = atOfIndex(index)) {
  cursor.index = Math.min(Math.max(0, index), Math.max(0, model.entries.length - 1));
  cursor.at = at;
  for (const watcher of watchers) watcher();
}

const moveToTime = at => moveTo(indexOfTime(at), Math.min(Math.max(at, model.start), model.end));

// Moves to the next or the previous of some lines that are in rising order. Behind the last one it begins again at the first.
function step(indices, direction, what) {
  if (indices.length === 0) return say(`There is no ${what} in this log.`);
  const isNext = direction > 0, before = lastWhere(indices, index => isNext ? index <= cursor.index : index < cursor.index);
  const found = isNext ? before + 1 : before, isThere = found >= 0 && found < indices.length;
  moveTo(isThere ? indices[found] : indices.at(isNext ? 0 : -1));
  say(isThere ? '' : `There is no ${what} ${isNext ? 'behind' : 'before'} that line: this is the ${isNext ? 'first' : 'last'} one.`);
}

const rising = list => [...new Set(list)].sort((one, other) => one - other);
const screenIndices = rising(model.screens.map(screen => screen.index));
const differenceIndices = rising(model.differences.filter(difference => difference.isHere).map(difference => difference.index));
const gapIndices = rising(model.gaps.filter(gap => gap.longest.isHere).map(gap => gap.longest.index));

// The screens do not begin again: the first and the last one are ends.
function stepScreen(direction) {
  const next = lastWhere(screenIndices, index => index <= cursor.index) + 1;
  const previous = lastWhere(screenIndices, index => index < cursor.index);
  const index = screenIndices[direction > 0 ? next : previous];
  if (index === undefined) say(direction > 0 ? 'This is the last screen.' : 'This is the first screen.');
  else { say(''); moveTo(index); }
}

// ---- playing

let lastTick = 0;

function tick(now) {
  if (!cursor.isPlaying) return;
  const at = cursor.at + (now - lastTick) * 1000 * cursor.speed;
  lastTick = now;
  if (at >= model.end) { moveTo(model.entries.length - 1); play(false); return; }
  moveTo(indexOfTime(at), at);
  requestAnimationFrame(tick);
}

// Starts or stops playing. At the end of the log it begins at the start.
function play(isPlaying) {
  if (model.entries.length === 0 || isPlaying === cursor.isPlaying) return;
  cursor.isPlaying = isPlaying;
  if (isPlaying && cursor.at >= model.end) moveTo(0);
  lastTick = performance.now();
  if (isPlaying) requestAnimationFrame(tick);
  showPlayer();
}

// ---- what the page says

let hush = null;

function say(text) {
  $('note').textContent = text;
  clearTimeout(hush);
  if (text !== '') hush = setTimeout(() => say(''), 5000);
}
