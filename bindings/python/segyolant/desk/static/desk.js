'use strict';
// The page of the desk. It shows what the server tells, and sends what the operator does. Texts are put in as text. Of the picture of
// the mask only what the core draws with is put in, and other pictures are images of their own: nothing runs in them.

const $ = id => document.getElementById(id);
const TOKEN = document.querySelector('meta[name=token]').content;
const MOST_LINES = 500, QUIET = /^..E6FF..#FE|^..E7....#FF|^..(EB|C7)/;
const SIGNALS = [{ frequency: 1400, period: 250 }, { frequency: 900, period: 500 }, { frequency: 600, period: 1000 }];
const NARROW = window.matchMedia('(max-width: 60rem)');
const SPEEDS = [0.25, 0.5, 1, 2, 4, 8, 16, 64];
const desk = window.desk = { changes: [], errors: [], picture: null, state: null };
window.addEventListener('error', event => desk.errors.push(String(event.message)));

const make = (tag, properties = {}, ...children) => {
  const element = Object.assign(document.createElement(tag), properties);
  element.append(...children);
  return element;
};
const hex = address => address.toString(16).toUpperCase().padStart(2, '0');

// ---- the connection

let socket = null;

function connect() {
  let wasOpen = false;
  socket = new WebSocket(`ws://${location.host}/ws?token=${TOKEN}`);
  socket.onopen = () => { wasOpen = true; banner('connection', ''); $('mask').classList.remove('gone'); };
  socket.onmessage = event => { for (const message of JSON.parse(event.data)) TOLD[message.kind]?.(message); };
  socket.onclose = () => {
    held = null;
    banner('connection', 'The desk does not answer. What is shown is old.');
    $('mask').classList.add('gone');
    setTimeout(wasOpen ? connect : reload, 1000);
  };
}

// A desk that was started anew gives the page another token.
async function reload() {
  try { if ((await fetch('/', { cache: 'no-store' })).ok) { location.reload(); return; } } catch { /* it is not there yet */ }
  setTimeout(reload, 1000);
}

const send = message => { if (socket.readyState === WebSocket.OPEN) socket.send(JSON.stringify(message)); };

// ---- the picture

// What the core draws with, and the values that it gives. Nothing else of a picture comes into the page, as texts of pools are in it.
const SVG = 'http://www.w3.org/2000/svg';
const ELEMENTS = new Set('svg rect ellipse polygon polyline text symbol use pattern'.split(' '));
const VALUES = new Map((
  'data-id x y width height viewBox preserveAspectRatio overflow cx cy rx ry points stroke stroke-width stroke-dasharray ' +
  'stroke-linecap shape-rendering patternUnits font-family font-size font-weight font-style text-decoration textLength ' +
  'lengthAdjust xml:space').split(' ').map(name => [name, /^[\w .,#-]*$/]));
VALUES.set('xmlns', /^http:\/\/www\.w3\.org\/2000\/svg$/).set('id', /^[pf]\d+$/).set('href', /^#p\d+$/);
VALUES.set('fill', /^(none|#\w+|url\(#f\d+\))$/);

const isDrawn = node => node.nodeType === Node.TEXT_NODE || node.namespaceURI === SVG && ELEMENTS.has(node.tagName);
const drawnIn = node => [...node.childNodes].filter(isDrawn);

// A node of the page like one that was parsed, with what the core draws with, and nothing else.
function copyOf(parsed) {
  if (parsed.nodeType === Node.TEXT_NODE) return document.createTextNode(parsed.data);
  const made = document.createElementNS(SVG, parsed.tagName);
  for (const { namespaceURI, name, value } of parsed.attributes) {
    if (VALUES.get(name)?.test(value)) made.setAttributeNS(namespaceURI, name, value);
  }
  for (const child of drawnIn(parsed)) made.append(copyOf(child));
  return made;
}

// Makes a node of the page like one that was parsed. What is equal in both stays as it is, so the browser draws only the rest anew.
function patch(old, parsed) {
  if (parsed.nodeType === Node.TEXT_NODE || !old.cloneNode().isEqualNode(parsed.cloneNode())) {
    old.replaceWith(copyOf(parsed));
    return;
  }
  const before = [...old.childNodes], after = drawnIn(parsed);
  let behind = null; // the first node of those at the end that are equal
  while (before.length && after.length && before.at(-1).isEqualNode(after.at(-1))) {
    behind = before.pop();
    after.pop();
  }
  let first = 0;
  while (first < before.length && first < after.length && before[first].isEqualNode(after[first])) first++;
  const isPaired = before.length === after.length;
  for (let k = first; k < before.length; k++) isPaired ? patch(before[k], after[k]) : before[k].remove();
  if (!isPaired) for (let k = first; k < after.length; k++) old.insertBefore(copyOf(after[k]), behind);
}

// A document that is only parsed runs nothing and loads nothing.
function drawSvg(svg) {
  const parsed = new DOMParser().parseFromString(svg, 'image/svg+xml').documentElement, old = $('picture').firstChild;
  if (!isDrawn(parsed)) $('picture').replaceChildren();
  else if (old) patch(old, parsed);
  else $('picture').append(copyOf(parsed));
}

let nextPicture = null;

// Of the pictures that come between two frames of the browser only the last one is drawn.
function showPicture(message) {
  if (!nextPicture) requestAnimationFrame(drawPicture);
  nextPicture = message;
}

function drawPicture() {
  const picture = nextPicture;
  nextPicture = null;
  if (picture.svg) drawSvg(picture.svg);
  placePicture(picture);
  // (the time at which the frame with the picture is painted)
  setTimeout(() => {
    if (picture.at) desk.changes.push([performance.timeOrigin + performance.now(), picture.at * 1000]);
    if (desk.changes.length > 2000) desk.changes.splice(0, 1000);
  });
}

function placePicture(picture) {
  const before = desk.picture, size = /^<svg[^>]*? width="(\d+)" height="(\d+)"/.exec(picture.svg);
  desk.picture = picture;
  picture.width = size ? +size[1] : 0;
  picture.height = size ? +size[2] : 0;
  if (picture.width !== before?.width || picture.height !== before?.height) fit();
  if (picture.too_long !== before?.too_long) $('nothing').textContent = picture.too_long
    ? `The picture has ${picture.too_long} characters and is not shown.` : 'No working set is shown.';
  placeHits(picture);
  sayLines(picture.lines);
}

function fit() {
  const picture = desk.picture;
  if (!picture) return;
  $('mask').hidden = !picture.width;
  $('nothing').hidden = Boolean(picture.width);
  if (!picture.width) return;
  const room = $('stage').getBoundingClientRect();
  // (on a narrow page the bus is below the mask, and the stage is as high as the mask itself)
  const height = NARROW.matches ? window.innerHeight * 0.8 : Math.max(room.height, 480) - 70;
  const scale = Math.max(0.5, Math.min((room.width - 16) / picture.width, height / picture.height));
  $('mask').style.width = `${Math.round(picture.width * scale) + 6}px`;
  $('mask').style.height = `${Math.round(picture.height * scale) + 6}px`;
}
window.addEventListener('resize', fit);
new ResizeObserver(fit).observe($('stage'));

// Real buttons lie over the picture. They outlive it, so that a press, a click and the focus do: they are kept by ID, and only moved.
function placeHits(picture) {
  const wanted = new Map();
  for (const hit of picture.hits) {
    let copy = 0;
    while (wanted.has(`hit-${hit.id}-${copy}`)) copy++;
    wanted.set(`hit-${hit.id}-${copy}`, hit);
  }
  for (const button of [...$('hits').children]) if (!wanted.has(button.id)) button.remove();
  let last = null;
  for (const [key, hit] of wanted) {
    const button = $(key) ?? make('button', { type: 'button', id: key });
    if (last ? last.nextSibling !== button : $('hits').firstChild !== button) last ? last.after(button) : $('hits').prepend(button);
    placeHit(button, hit, picture);
    last = button;
  }
}

function placeHit(button, hit, picture) {
  const told = JSON.stringify([hit, held === hit.id, picture.width, picture.height]);
  if (button.told === told) return;
  button.told = told;
  for (const [side, pixels] of [['left', hit.x], ['width', hit.width]]) button.style[side] = `${pixels / picture.width * 100}%`;
  for (const [side, pixels] of [['top', hit.y], ['height', hit.height]]) button.style[side] = `${pixels / picture.height * 100}%`;
  button.dataset.object = hit.id;
  button.dataset.kind = hit.kind;
  button.className = `hit ${hit.kind}${hit.off ? ' off' : ''}${held === hit.id ? ' held' : ''}`;
  button.setAttribute('aria-label', `${hit.kind} ${hit.id}${hit.label ? `: ${hit.label}` : ''}`);
  button.setAttribute('aria-disabled', hit.off);
  if (isPressed(button)) button.setAttribute('aria-pressed', held === hit.id); else button.removeAttribute('aria-pressed');
}

// The lines that the mask says, for those who hear the page.
function sayLines(lines) {
  const said = $('said');
  while (said.children.length > lines.length) said.lastChild.remove();
  for (const [k, line] of lines.entries()) {
    const item = said.children[k] ?? said.appendChild(make('li'));
    if (item.textContent !== line) item.textContent = line;
  }
}

// ---- keys and buttons

let held = null, isKeyDown = false; // the object that is held on this page, and whether by a key of the keyboard
const isPressed = button => button.dataset.kind === 'key' || button.dataset.kind === 'button';
const hitOf = event => event.target instanceof Element ? event.target.closest('.hit') : null;

function press(button) {
  if (held !== null) return;
  held = +button.dataset.object;
  button.classList.add('held');
  tell('');
  send({ do: 'press', object: held });
}

function release() {
  isKeyDown = false;
  if (held === null) return;
  send({ do: 'release', object: held });
  held = null;
  for (const button of document.querySelectorAll('.hit.held')) button.classList.remove('held');
}

const open = button => { tell(''); send({ do: 'open', object: +button.dataset.object }); };

$('hits').addEventListener('pointerdown', event => {
  const button = hitOf(event);
  if (!button || event.button !== 0) return;
  event.preventDefault();
  // (a touch is bound to the button at which it began; unbound, it can leave it)
  if (button.hasPointerCapture(event.pointerId)) button.releasePointerCapture(event.pointerId);
  button.focus({ focusVisible: false, preventScroll: true });
  startSound();
  if (isPressed(button)) press(button);
});
$('hits').addEventListener('click', event => {
  if (hitOf(event) && !isPressed(hitOf(event))) open(hitOf(event));
});
$('hits').addEventListener('pointerout', event => {
  const button = hitOf(event);
  if (button && +button.dataset.object === held && !button.contains(event.relatedTarget) && !isKeyDown) release();
});
$('hits').addEventListener('contextmenu', event => event.preventDefault());
$('hits').addEventListener('keydown', event => {
  const button = hitOf(event);
  if (!button || (event.key !== 'Enter' && event.key !== ' ')) return;
  event.preventDefault();
  if (event.repeat) return;
  if (isPressed(button)) { isKeyDown = true; press(button); } else open(button);
});
window.addEventListener('keyup', event => {
  if (!isKeyDown || (event.key !== 'Enter' && event.key !== ' ')) return;
  release();
});
for (const name of ['pointerup', 'pointercancel']) window.addEventListener(name, () => { if (!isKeyDown) release(); });
for (const name of ['blur', 'pagehide']) window.addEventListener(name, release);

// ---- small pictures: designators and items of lists

// Puts an SVG into an element as an image, once it can be shown without a gap.
async function putImage(into, svg) {
  const url = URL.createObjectURL(new Blob([svg], { type: 'image/svg+xml' }));
  const image = make('img', { alt: '', src: url, draggable: false });
  try { await image.decode(); } catch { /* an empty picture */ }
  into.replaceChildren(image);
  URL.revokeObjectURL(url);
}

// ---- dialogs

let entry = null; // the input that is asked for, and how its value is sent

function ask(message) {
  const fields = { number: askNumber, text: askText, list: askChoice, boolean: askChoice };
  entry = { object: message.object, ...fields[message.input](message) };
  $('dialog-title').textContent = `${message.input} ${message.object}${message.name ? ` ${message.name}` : ''}`;
  $('hint').textContent = message.enabled ? entry.hint : 'This input is disabled.';
  $('fault').textContent = '';
  $('entry').replaceChildren(...entry.elements);
  if (!$('dialog').open) $('dialog').showModal();
  ($('entry').querySelector('input:checked') ?? $('entry').querySelector('input'))?.focus();
  entry.field?.select();
}

function askNumber(message) {
  const field = make('input', { type: 'text', inputMode: 'decimal', autocomplete: 'off', value: message.shown, maxLength: 17 });
  field.ariaLabel = 'Value';
  const hint = message.none ? 'No number is accepted.' : `from ${message.least} to ${message.greatest}`;
  return { elements: [field], field, hint, value: () => ({ typed: field.value }) };
}

function askText(message) {
  const field = make('input', { type: 'text', autocomplete: 'off', value: message.text, maxLength: message.length, ariaLabel: 'Text' });
  const characters = message.characters ? `; ${message.are_forbidden ? 'none of' : 'of'} ${message.characters}` : '';
  return { elements: [field], field, hint: `at most ${message.length} characters${characters}`, value: () => ({ text: field.value }) };
}

function askChoice(message) {
  const items = message.items ?? [{ text: 'off' }, { text: 'on' }];
  const elements = items.map((item, index) => {
    const picture = make('span');
    if (item.svg) putImage(picture, item.svg);
    const radio = make('input', { type: 'radio', name: 'item', value: index, checked: index === message.value });
    return make('label', { className: 'item' }, radio, picture, make('span', { textContent: item.text || (item.svg ? '' : '(nothing)') }));
  });
  const chosen = () => elements.findIndex(element => element.querySelector('input').checked);
  return { elements, hint: items.length ? '' : 'There is nothing to choose.', value: () => ({ raw: chosen() }) };
}

$('dialog').querySelector('form').addEventListener('submit', event => {
  event.preventDefault();
  const value = entry.value();
  if (value.raw === -1) { $('fault').textContent = 'Choose one.'; return; }
  send({ do: 'enter', object: entry.object, ...value });
});
$('entry').addEventListener('keydown', event => {
  if (event.key === 'Enter' && event.target.type === 'radio') { event.preventDefault(); $('dialog').querySelector('form').requestSubmit(); }
});
$('cancel').addEventListener('click', () => $('dialog').close());
$('dialog').addEventListener('close', () => {
  $('entry').replaceChildren();
  document.querySelector(`.hit[data-object="${entry.object}"]`)?.focus({ focusVisible: false });
});

function entered(message) {
  if (!$('dialog').open || entry.object !== message.object) return;
  $('fault').textContent = message.fault;
  if (!message.fault) $('dialog').close();
}

// ---- sets, alarms and notes

function showState(message) {
  desk.state = message;
  const named = message.mask_name ? ` ${message.mask_name}` : '';
  const mask = message.mask === null ? '' : `, ${message.alarm ? 'alarm mask' : 'mask'} ${message.mask}${named}`;
  $('shown').textContent = message.shown === null ? 'no set' : `set ${hex(message.shown)}${mask}`;
  $('mask').classList.toggle('alarm', message.alarm !== null);
  banner('alarm', message.alarm ? `Alarm, priority ${message.alarm.priority}` : '');
  showSets(message.sets);
}

function showSets(sets) {
  const wanted = new Map(sets.map(set => [`set-${set.address}`, set]));
  for (const button of [...$('sets').children]) if (!wanted.has(button.id)) button.remove();
  for (const [key, set] of wanted) {
    let button = $(key);
    if (!button) {
      button = make('button', { type: 'button', id: key }, make('span', { className: 'blank' }), make('span'));
      button.addEventListener('click', () => { release(); send({ do: 'choose', address: set.address }); });
      $('sets').append(button);
    }
    button.setAttribute('aria-pressed', set.shown);
    button.disabled = !set.pool;
    button.lastChild.textContent = hex(set.address) + (set.pool ? '' : ' (no pool)');
    const icon = set.icon.trim();
    if (button.dataset.icon === icon) continue;
    button.dataset.icon = icon;
    icon ? putImage(button.firstChild, icon) : button.firstChild.replaceChildren();
  }
}

const banners = new Map();
function banner(why, text, ...elements) {
  text ? banners.set(why, [text, ...elements]) : banners.delete(why);
  const top = [...banners.values()].at(-1);
  $('banner').hidden = !top;
  $('banner').replaceChildren(...(top ?? []));
}

const tell = (text, mood = '') => Object.assign($('note'), { textContent: text, className: mood });

const note = message => tell(message.text, message.mood);

function showDesk(message) {
  $('bus').textContent = `${message.bus}, terminal ${hex(message.own)}`;
  $('record-switch').hidden = message.recording === null;
  if (message.recording) {
    $('record').checked = message.recording.on;
    $('record-switch').title = message.recording.fault || message.recording.path;
  }
  banner('ended', message.ended);
  const again = make('button', { type: 'button', textContent: `Begin anew at ${hex((message.own + 1) % 254)}` });
  again.addEventListener('click', () => send({ do: 'begin', own: (message.own + 1) % 254 }));
  banner('lost', message.lost ? `Another node took the address ${hex(message.own)}. ` : '', again);
}
$('record').addEventListener('change', () => send({ do: 'record', on: $('record').checked }));

function showBehind(message) {
  banner('behind', message.seconds ? `The terminal is ${message.seconds} s behind the bus: the program is too slow, or the bus too fast.` : '');
}

function showUpload(message) {
  $('upload').hidden = message.address === null || message.received >= message.announced && message.announced > message.received;
  if (message.address === null) return;
  $('upload').firstElementChild.textContent = `${hex(message.address)} uploads, ${Math.round(message.received / 1024)} KB`;
  $('upload').lastElementChild.value = message.announced > message.received ? message.received / message.announced : 1;
}

// ---- sounds

let audio = null, gain = null, volume = 100, alarmTimer = null;

function startSound() {
  if (!audio) {
    audio = new AudioContext();
    gain = audio.createGain();
    gain.connect(audio.destination);
    setVolume();
  }
  if (audio.state === 'suspended') audio.resume();
}
window.addEventListener('keydown', startSound, { once: true });

const setVolume = () => { if (gain) gain.gain.value = Math.min(volume, 100) / 100; };

function beep(frequency, from, milliseconds) {
  if (!audio || !$('sound').checked) return;
  const tone = audio.createOscillator();
  tone.frequency.value = Math.min(Math.max(frequency, 20), 12000);
  tone.connect(gain);
  tone.start(audio.currentTime + from / 1000);
  tone.stop(audio.currentTime + (from + milliseconds) / 1000);
}

function soundAlarm(message) {
  clearInterval(alarmTimer);
  const signal = SIGNALS[message.signal], sound = () => beep(signal.frequency, 0, signal.period / 2);
  if (!signal) return;
  sound();
  alarmTimer = setInterval(sound, signal.period);
}

function soundSignal(message) {
  for (let k = 0; k < Math.min(message.times, 20); k++) beep(message.frequency, k * (message.on + message.off), Math.min(message.on, 5000));
}

// ---- the panel of the bus

function timeText(seconds) {
  const date = new Date(seconds * 1000);
  return seconds > 1e8 ? `${date.toTimeString().slice(0, 8)}.${String(date.getMilliseconds()).padStart(3, '0')}` : seconds.toFixed(3);
}

function addLines(lines) {
  if ($('hold').getAttribute('aria-pressed') === 'true') return;
  const list = $('lines'), find = $('find').value.toLowerCase();
  const signs = { in: '<', out: '>', operator: '!' };
  const elements = [];
  for (const [time, direction, frame, words] of lines) {
    if ($('quiet').checked && QUIET.test(frame)) continue;
    if (find && !`${words} ${frame}`.toLowerCase().includes(find)) continue;
    elements.push(make('li', { className: direction, title: frame },
      ...[timeText(time), signs[direction] ?? '', words || frame].map(text => make('span', { textContent: text }))));
  }
  list.append(...elements);
  while (list.children.length > MOST_LINES) list.firstChild.remove();
  showEnd();
}

// The panel stays at its end, also where something above it takes of its room, unless it was scrolled away from there.
let isAtEnd = true;
const showEnd = () => { if (isAtEnd) $('lines').scrollTop = $('lines').scrollHeight; };
$('lines').addEventListener('scroll', () => {
  const { scrollHeight, scrollTop, clientHeight } = $('lines');
  isAtEnd = scrollHeight - scrollTop - clientHeight < 40;
});
new ResizeObserver(showEnd).observe($('lines'));

function showLines(message) {
  const slow = `${message.left_out} lines were left out: this page was too slow`;
  if (message.left_out) addLines([[message.lines[0]?.[0] ?? 0, 'left-out', '', slow]]);
  addLines(message.lines);
}
$('hold').addEventListener('click', () => $('hold').setAttribute('aria-pressed', $('hold').ariaPressed !== 'true'));

// ---- the player of a log

function showPlayer(message) {
  $('player').hidden = false;
  $('play').textContent = message.runs ? 'Pause' : 'Play';
  $('play').disabled = $('step').disabled = message.over;
  $('speed').value = message.speed;
  $('player').querySelector('progress').value = message.part;
  const end = message.over ? ', the end' : '';
  const problems = message.problems && `; ${message.problems}`;
  $('player').lastElementChild.textContent = `line ${message.line}, ${message.time.toFixed(1)} s${end}${problems}`;
}
$('speed').append(...SPEEDS.map(speed => make('option', { value: speed, textContent: `${speed} times` })));
$('speed').addEventListener('change', () => send({ do: 'play', speed: +$('speed').value }));
$('play').addEventListener('click', () => send({ do: 'play', runs: $('play').textContent === 'Play' }));
$('step').addEventListener('click', () => send({ do: 'play', step: true }));

const TOLD = {
  picture: showPicture, state: showState, desk: showDesk, dialog: ask, entered, note, lines: showLines, upload: showUpload,
  behind: showBehind, player: showPlayer, sound: soundAlarm, beep: soundSignal, volume: message => { volume = message.percent; setVolume(); },
};
connect();
