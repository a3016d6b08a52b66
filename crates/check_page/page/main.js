// The header, the tabs, the keys, paper, and the start of the page.

const TABS = ['findings', 'objects', 'costs', 'needs'];

function openTab(name) {
  for (const each of TABS) {
    const isOpen = each === name;
    $(`tab-${each}`).ariaSelected = String(isOpen);
    $(`tab-${each}`).tabIndex = isOpen ? 0 : -1;
    $(`${each}-panel`).classList.toggle('open', isOpen);
  }
  if (name === 'objects') showRow();
}

function stepTab(event) {
  const by = { ArrowRight: 1, ArrowLeft: -1 }[event.key];
  if (by === undefined) return;
  event.preventDefault();
  const at = TABS.findIndex(name => $(`tab-${name}`).ariaSelected === 'true'), next = TABS[(at + by + TABS.length) % TABS.length];
  openTab(next);
  $(`tab-${next}`).focus();
}

// ---- the header

function headChip(number, severity, does) {
  return make('button', { type: 'button', className: `head-chip ${number === 0 ? 'good' : severity}`,
    textContent: number === 0 ? `no ${severity}s` : plural(number, severity), onclick: does });
}

function fitChip() {
  const lacks = model.needs?.lacks ?? null, { mask_width, mask_height } = model.about;
  const [look, text] = lacks === null ? ['error', 'not judged whether it fits'] : lacks.length === 0 ? ['good', `fits ${mask_width}x${mask_height}`]
    : ['error', `does not fit ${mask_width}x${mask_height}`];
  return make('button', { type: 'button', className: `head-chip ${look}`, textContent: text, onclick: () => openTab('needs') });
}

function showHeader() {
  const { about, counts, findings } = model, name = about.file === '-' ? 'standard input' : about.file.split('/').pop();
  $('pool').textContent = name;
  $('pool').title = about.file;
  document.title = `${name}: report`;
  const left = [['mask', about.masks_left_out], ['key', about.keys_left_out], ['object', about.objects_left_out],
    ['finding', about.findings_left_out], ['event', about.events_left_out]].filter(([, number]) => number > 0);
  $('span').textContent = [plural(counts.objects, 'object'), plural(about.bytes, 'byte'), plural(model.masks.length, 'mask'), plural(model.keys.length, 'key'),
    ...left.map(([what, number]) => `${plural(number, what)} left out of this page`)].join(', ');
  $('made-by').textContent = `Made by segyolant ${about.version}`;
  const notes = findings.filter(finding => finding.severity === 'note').length;
  $('chips').append(headChip(counts.errors, 'error', () => leadToSeverity('error')), headChip(counts.warnings, 'warning', () => leadToSeverity('warning')),
    ...notes === 0 ? [] : [headChip(notes, 'note', () => leadToSeverity('note'))], fitChip());
  $('tab-findings').textContent = `Findings ${count(findings.length + about.findings_left_out)}`;
  $('tab-objects').textContent = `Objects ${count(counts.objects)}`;
  $('tab-costs').textContent = model.about.costs_known === 0 ? 'Costs' : `Costs ${count(model.costs.length + about.events_left_out)}`;
}

// ---- keys

function search() {
  openTab('objects');
  $('search').focus();
  $('search').select();
}

const KEYS = {
  '/': search,
  f: () => stepFinding(1),
  F: () => stepFinding(-1),
  n: () => stepMask(1),
  p: () => stepMask(-1),
  m: toggleMarks,
  '+': () => setZoom(zoom * STEP),
  '=': () => setZoom(zoom * STEP),
  '-': () => setZoom(zoom / STEP),
  0: () => setZoom(1),
  1: () => openTab('findings'),
  2: () => openTab('objects'),
  3: () => openTab('costs'),
  4: () => openTab('needs'),
  '?': () => $('help').showModal(),
  Escape: () => choose(null),
};

// Keys are for the page, unless they are typed into a field, or press what was reached by the keyboard.
function takeKey(event) {
  const { target, key } = event;
  if (event.ctrlKey || event.altKey || event.metaKey || $('help').open || target.matches('input, select')) return;
  const does = KEYS[event.shiftKey ? key : key.toLowerCase()] ?? KEYS[key];
  if (does === undefined) return;
  event.preventDefault();
  does();
}

// ---- paper

// On paper are all pictures, all open groups, and the objects as a table.
function preparePaper() {
  for (const figure of figures.values()) drawMask(figure);
  for (const each of document.querySelectorAll('#findings-panel details')) each.open = true;
  if ($('printed') === null) $('objects-panel').append(printedObjects());
}

function start() {
  showHeader();
  startMasks();
  startTiles();
  showFindings();
  startObjects();
  showCosts();
  showNeeds();
  for (const name of TABS) $(`tab-${name}`).onclick = () => openTab(name);
  $('tabs').onkeydown = stepTab;
  $('marks').onclick = toggleMarks;
  $('help-button').onclick = () => $('help').showModal();
  document.addEventListener('keydown', takeKey);
  addEventListener('beforeprint', preparePaper);
  matchMedia('print').addEventListener('change', event => { if (event.matches) preparePaper(); });
  for (const listener of [showInspector, lightFindings, showRow, showChoice]) whenChosen(listener);
  openTab(model.findings.length > 0 ? 'findings' : 'objects');
  setZoom(fitting());
  showMarks();
  const asked = Number(location.hash.slice(1));
  choose(location.hash.length > 1 && model.byId.has(asked) ? asked : null);
  $('loading').remove();
}

start();
