'use strict';
// The data of the page: its blocks, read into one model. The other files show the model, and do not change it.

const NEWLINE = String.fromCharCode(10);
const SECOND = 1e6;          // microseconds
const EPOCH = 1e6 * SECOND;  // times from here on are dates, and are shown from the start of the log on
const POOL_KINDS = ['pool', 'update', 'unended', 'broken', 'not whole', 'request'];
const DIFFERENCE_KINDS = ['differ', 'ours alone', 'theirs alone'];
const PACKET = /: E?TP packet ([0-9]+|without a number)/;

const $ = id => document.getElementById(id);
const plural = (count, one, many = `${one}s`) => `${count.toLocaleString('en')} ${count === 1 ? one : many}`;
const wordsOfAddress = address => address === 'FF' ? 'all' : address;

// If the page cannot be shown, it says why.
addEventListener('error', event => { if ($('loading')) $('loading').textContent = `The page cannot be shown: ${event.message}`; });

// An element with properties and children. Strings become text, never markup.
function make(tag, properties = {}, ...children) {
  const element = Object.assign(document.createElement(tag), properties);
  element.append(...children);
  return element;
}

// The last index at which something holds that holds up to some place and nowhere behind it; -1 if it holds nowhere.
function lastWhere(list, holds) {
  let low = 0, high = list.length;
  while (low < high) {
    const middle = (low + high) >> 1;
    if (holds(list[middle])) low = middle + 1; else high = middle;
  }
  return low - 1;
}

// The objects of a data block, one a line.
function linesOf(block) {
  const lines = ($(block)?.textContent ?? '').split(NEWLINE);
  return lines.filter(line => line.trim() !== '').map(line => JSON.parse(line));
}

const ofKind = (lines, ...kinds) => lines.filter(line => kinds.includes(line.kind));

// ---- the lines of the log

// Places each line in time, as `at`: never before the line in front of it. Where the clock was set back by more than a second, all
// that follows is moved by as much. `most` is the greatest time so far. What is in front of the first frame has no time of its own.
function placeInTime(entries) {
  const first = entries.findIndex(entry => entry.kind === 'frame');
  let at = entries[first]?.time ?? 0, most = at, moved = 0;
  for (const [k, entry] of entries.entries()) {
    if (k < first) entry.time = null;
    const time = entry.time === null ? at : entry.time + moved;
    if (time < at - SECOND) moved += at - time;
    at = Math.max(at, time);
    most = Math.max(most, entry.time ?? most);
    Object.assign(entry, { at, most });
  }
}

// Whether a line is a command of an implement. If it came in packets, the answer tells the function.
function isCommand(entry) {
  if (entry.kind !== 'frame' || entry.source === model.about.own) return false;
  const answer = PACKET.test(entry.words) ? entry.outputs.find(output => output.frame?.startsWith('E6', 2)) : undefined;
  const frame = entry.frame?.startsWith('E7', 2) ? entry.frame : answer?.frame ?? '';
  const code = frame.slice(9, 11);
  return code >= 'A0' && code <= 'BF';
}

// Whether a line is one packet of many: it completes no message, and nothing comes of it.
function isPacket(entry) {
  return PACKET.test(entry.words) && !entry.words.includes('whole message')
    && entry.outputs.length + entry.removed.length + entry.added.length + entry.differences.length === 0;
}

function entriesOf(lines) {
  const entries = lines.map((line, index) => ({ words: '', time: null, outputs: [], removed: [], added: [], ...line, index,
    differences: [], differs: false }));
  placeInTime(entries);
  return entries;
}

// ---- what the other subcommands found

// Uploads, transfers and requests, each with the findings that follow it.
function uploadsOf(lines) {
  const uploads = [];
  for (const line of lines) {
    if (POOL_KINDS.includes(line.kind)) uploads.push({ ...line, findings: [] });
    else uploads.at(-1)?.findings.push(line);
  }
  return uploads;
}

// The names of objects, by the address of their set and their ID.
function namesOf(sets) {
  const names = new Map();
  for (const set of sets) {
    for (const object of Object.values(set).filter(Array.isArray).flat()) {
      names.set(`${set.source} ${object.id}`, wordsOfObject(object));
    }
  }
  return names;
}

const wordsOfObject = ({ kind, id, name }) => [kind, id, name && `${String.fromCharCode(96)}${name}${String.fromCharCode(96)}`]
  .filter(part => part !== null && part !== undefined && part !== '').join(' ');

function readModel() {
  const stats = linesOf('stats'), compare = linesOf('compare'), screens = linesOf('screens');
  const entries = entriesOf(linesOf('trace')), sets = ofKind(stats, 'set');
  return {
    about: linesOf('about')[0] ?? { log: '', own: '', lines_left_out: 0, screens_left_out: 0 },
    entries, sets, stats, names: namesOf(sets),
    start: entries[0]?.at ?? 0, end: entries.at(-1)?.at ?? 0, origin: (entries[0]?.at ?? 0) >= EPOCH ? entries[0].at : 0,
    pictures: new Map(ofKind(screens, 'picture').map(line => [line.number, line.svg])),
    screens: ofKind(screens, 'screen'), masks: [],
    differences: ofKind(compare, ...DIFFERENCE_KINDS), loads: ofKind(compare, 'load'), leftOut: ofKind(compare, 'left out'),
    answers: ofKind(compare, 'answers')[0] ?? null,
    uploads: uploadsOf(linesOf('pools')), gaps: ofKind(stats, 'gaps'), seconds: ofKind(stats, 'second'),
    busiest: ofKind(stats, 'busiest_second')[0] ?? null, log: ofKind(stats, 'log')[0] ?? null,
  };
}

// ---- questions to the model

const model = readModel();

// Whether a line is among those of the page, which may be a part of the log.
const isInPage = line => model.entries.length > 0 && line >= model.entries[0].line && line <= model.entries.at(-1).line;
// The entry of a line of the log, or the one before it.
const indexOfLine = line => Math.max(0, lastWhere(model.entries, entry => entry.line <= line));
const indexOfTime = at => Math.max(0, lastWhere(model.entries, entry => entry.at <= at));
const atOfIndex = index => model.entries[index]?.at ?? model.start;
const timeOfIndex = index => model.entries[index]?.time ?? atOfIndex(index);
const seconds = (at, digits = 3) => ((at - model.origin) / SECOND).toFixed(digits);
const objectName = (set, id) => model.names.get(`${set} ${id}`) ?? null;

// ---- what names lines of the log, connected with the entries of these lines

function connectScreens() {
  let isDark = true;
  for (const [k, screen] of model.screens.entries()) {
    screen.index = indexOfLine(screen.line);
    screen.from = k === 0 ? model.start : atOfIndex(screen.index);
    const mask = model.masks.at(-1);
    if (mask) mask.to = screen.from;
    if (mask && mask.set === screen.set && mask.mask === screen.mask) mask.screens.push(screen);
    else {
      if (screen.set !== null) isDark = !isDark;
      model.masks.push({ set: screen.set, mask: screen.mask, from: screen.from, screens: [screen], isDark: isDark && screen.set !== null });
    }
    model.masks.at(-1).to = model.end;
  }
}

function connectDifferences() {
  for (const difference of model.differences) {
    const lines = [difference.line, difference.recorded_line].filter(line => line !== null);
    difference.anchor = lines[0];
    difference.isHere = isInPage(lines[0]);
    difference.index = indexOfLine(lines[0]);
    if (difference.isHere) model.entries[difference.index].differences.push(difference);
    for (const line of lines.filter(isInPage)) model.entries[indexOfLine(line)].differs = true;
  }
  model.differences.sort((one, other) => one.anchor - other.anchor);
}

// Connects what lasts from one line to another. Without a last line it lasts to the end of the log, and without a first one it is there.
function connectSpan(what, first_line, last_line) {
  const last = last_line ?? Infinity, first = first_line ?? last, entries = model.entries;
  what.isHere = entries.length > 0 && last >= entries[0].line && (first <= entries.at(-1).line || first === Infinity);
  what.index = indexOfLine(first);
  what.last = indexOfLine(last);
}

function connectOthers() {
  for (const upload of model.uploads) connectSpan(upload, upload.first_line, upload.last_line);
  for (const { longest } of model.gaps) connectSpan(longest, longest.first_line, longest.last_line);
  for (const second of model.seconds) {
    const entry = model.entries[lastWhere(model.entries, each => each.most < second.start) + 1];
    second.from = second.start + (entry ? entry.at - entry.most : 0);
  }
}

connectScreens();
connectDifferences();
connectOthers();
for (const entry of model.entries) Object.assign(entry, { isPacket: isPacket(entry), isCommand: isCommand(entry) });
