// The header, the tabs, the keys, and the start of the page.

const TABS = ['differences', 'pools', 'numbers'];
const panelOf = name => $(name === 'pools' ? 'pools-panel' : name);

function openTab(name, part = null) {
  for (const each of TABS) {
    $(`tab-${each}`).ariaSelected = String(each === name);
    panelOf(each).classList.toggle('open', each === name);
  }
  $('tables').scrollIntoView({ block: 'nearest' });
  part?.scrollIntoView({ block: 'nearest' });
}

// ---- the header

function chip(count, what, look, lead) {
  const text = count === null ? what : count === 0 ? `no ${what}s` : plural(count, what);
  return make('button', { type: 'button', className: `chip ${count === 0 ? 'good' : look}`, textContent: text, onclick: lead });
}

// Opens the part of the first of some uploads, and moves there.
function leadToUpload(uploads) {
  openTab('pools', $('pools-panel').children[model.uploads.indexOf(uploads[0])]);
  if (uploads[0]?.isHere) moveTo(uploads[0].last);
}

function leadToDifferences() {
  openTab('differences');
  if (differenceIndices.length > 0) moveTo(differenceIndices[0]);
}

function showChips() {
  const refused = model.uploads.filter(isRefused), broken = model.uploads.filter(isBroken), gaps = model.gaps;
  const count = gaps.reduce((sum, gap) => sum + gap.count, 0);
  $('chips').append(
    model.answers === null ? chip(null, 'nothing compared', 'warn', () => openTab('differences'))
      : chip(model.differences.length, 'difference', 'bad', leadToDifferences),
    chip(refused.length, 'refused pool', 'bad', () => leadToUpload(refused)),
    chip(broken.length, 'broken transfer', 'warn', () => leadToUpload(broken)),
    chip(count, 'gap', 'warn', () => { openTab('numbers', $('gaps')); if (gapIndices.length > 0) moveTo(gapIndices[0]); }),
  );
}

function wordsOfSpan() {
  const { about, entries, origin, start, end } = model;
  const left = [[about.lines_left_out, 'line'], [about.screens_left_out, 'screen']].filter(([count]) => count > 0);
  return [plural(entries.length, 'line'), span(end - start), `terminal ${about.own}`,
    ...origin > 0 ? [`${new Date(origin / 1000).toISOString().slice(0, 19).replace('T', ' ')} UTC`] : [],
    ...left.map(([count, what]) => `${plural(count, what)} left out of this page`)].join(', ');
}

function showHeader() {
  const name = model.about.log === '-' ? 'standard input' : model.about.log.split('/').pop();
  $('log').textContent = name;
  $('log').title = model.about.log;
  document.title = `${name}: report`;
  $('span').textContent = wordsOfSpan();
  $('made-by').textContent = `Made by segyolant_log ${model.about.version ?? ''}`;
  showChips();
}

// ---- keys

const KEYS = {
  ArrowLeft: () => stepScreen(-1),
  ArrowRight: () => stepScreen(1),
  ArrowUp: () => stepLine(-1),
  ArrowDown: () => stepLine(1),
  Enter: () => { const entry = trace.rows[trace.cursorRow]?.entry; if (entry) toggle(entry); },
  ' ': () => play(!cursor.isPlaying),
  d: () => step(differenceIndices, 1, 'difference'),
  D: () => step(differenceIndices, -1, 'difference'),
  g: () => step(gapIndices, 1, 'gap'),
  Home: () => moveTo(0),
  End: () => moveTo(model.entries.length - 1),
  '/': () => $('search').focus(),
  '?': () => $('help').showModal(),
};

const PRESSED = 'button, summary, input[type=checkbox]';

// Keys are for the page, unless they are typed into a field, or press what was reached by the keyboard.
function takeKey(event) {
  const { target, key } = event, isField = target.matches('input[type=search], select');
  if (key === 'Escape' && target === $('search')) { target.value = ''; target.blur(); refill(); return; }
  if (key === 'Enter' && target === $('search')) { stepLine(event.shiftKey ? -1 : 1); return; }
  if (event.ctrlKey || event.altKey || event.metaKey || $('help').open || isField) return;
  if ((key === ' ' || key === 'Enter') && target.matches(PRESSED)) return;
  const does = KEYS[event.shiftKey ? key : key.toLowerCase()] ?? KEYS[key];
  if (does === undefined) return;
  event.preventDefault();
  does();
}

// What the mouse pressed does not keep the keys.
const leave = event => { if (event.detail > 0) event.target.closest?.(PRESSED)?.blur(); };

// ---- the edge between the screen and the tables

function startSplitter() {
  const splitter = $('splitter'), setHeight = height => document.body.style.setProperty('--tables', `${Math.max(44, height)}px`);
  splitter.onpointerdown = event => splitter.setPointerCapture(event.pointerId);
  splitter.onpointermove = event => { if (splitter.hasPointerCapture(event.pointerId)) setHeight(innerHeight - event.clientY); };
  splitter.ondblclick = () => setHeight(innerHeight / 2);
}

function start() {
  showHeader();
  showDifferences();
  showPools();
  showNumbers();
  startScreen();
  startTrace();
  startTimeline();
  startSplitter();
  for (const name of TABS) $(`tab-${name}`).onclick = () => openTab(name);
  $('tab-differences').textContent = `Differences (${model.differences.length})`;
  $('tab-pools').textContent = `Pools (${pools.length})`;
  $('help-button').onclick = () => $('help').showModal();
  document.addEventListener('keydown', takeKey);
  document.addEventListener('click', leave);
  addEventListener('beforeprint', () => { for (const each of document.querySelectorAll('details')) each.open = true; });
  whenMoved(lightRows);
  openTab(model.differences.length > 0 || model.uploads.length === 0 ? 'differences' : 'pools');
  scrollTo(0, 0);
  moveTo(model.screens.find(screen => screen.picture !== null)?.index ?? 0);
  $('loading').remove();
}

start();
