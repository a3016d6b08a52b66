// The list of the objects, with its search. Only the rows in sight are in the page.

const ROW = 26;  // the height of a row in pixels, as in the style
const list = $('list'), rows = $('rows');
const FILTERS = [['all', 'all objects'], ['findings', 'with findings'], ['errors', 'with errors'], ['unused', 'that nothing names']];
let found = model.objects;

// ---- search

const wordsOfObject = object => [object.id, object.kind, object.name ?? '', object.text ?? ''].join(' ').toLowerCase();

function isWanted(object, filter) {
  if (filter === 'findings') return object.findings.length > 0;
  if (filter === 'errors') return worstOf(object.findings) === 'error';
  if (filter === 'unused') return object.parents.length === 0 && object.kind !== 'Working Set';
  return filter === 'all' || object.kind === filter;
}

// Each word of the search stands in what is said of an object. A number alone is an ID that begins so, if there is one.
function refill() {
  const text = $('search').value.trim().toLowerCase(), words = text.split(' ').filter(word => word !== ''), filter = $('filter').value;
  const wanted = model.objects.filter(object => isWanted(object, filter));
  const isNumber = words.length === 1 && [...words[0]].every(letter => letter >= '0' && letter <= '9');
  const byId = isNumber ? wanted.filter(object => String(object.id).startsWith(words[0])) : [];
  found = byId.length > 0 ? byId : wanted.filter(object => words.every(word => wordsOfObject(object).includes(word)));
  $('count').textContent = found.length === model.objects.length ? count(found.length) : `${count(found.length)} of ${count(model.objects.length)}`;
  rows.style.height = `${Math.max(1, found.length) * ROW}px`;
  drawRows();
}

// ---- rows

function rowOf(object, at) {
  const severity = worstOf(object.findings), isLit = object.id === choice.id;
  const row = make('div', { className: `row ${isLit ? 'lit' : ''}`, id: `row-${object.id}` },
    make('span', { className: `dot ${severity ?? ''}`, title: severity === null ? '' : plural(object.findings.length, 'finding') }),
    make('span', { className: 'id', textContent: object.id }), make('span', { className: 'kind', textContent: object.kind }),
    make('span', { className: 'name', textContent: object.name ?? (object.text === null ? '' : `'${object.text.trim()}'`) }),
    make('span', { className: 'at', textContent: object.at ?? '' }));
  row.setAttribute('role', 'option');
  row.ariaSelected = String(isLit);
  row.style.top = `${at * ROW}px`;
  row.title = `${labelOf(object)}${object.text === null ? '' : `: '${object.text}'`}`;
  row.onclick = () => choose(object.id, { from: 'list' });
  return row;
}

function drawRows() {
  const first = Math.max(0, Math.floor(list.scrollTop / ROW) - 5), last = first + Math.ceil(list.clientHeight / ROW) + 12;
  if (found.length === 0) rows.replaceChildren(make('p', { className: 'empty', textContent: 'No object is as the search asks.' }));
  else rows.replaceChildren(...found.slice(first, last).map((object, k) => rowOf(object, first + k)));
  const chosen = found.some(object => object.id === choice.id) ? `row-${choice.id}` : '';
  list.setAttribute('aria-activedescendant', chosen);
}

// Brings a row into sight.
function scrollToRow(at) {
  const top = at * ROW, room = list.clientHeight;
  if (top < list.scrollTop) list.scrollTop = top;
  if (top + ROW > list.scrollTop + room) list.scrollTop = top + ROW - room;
}

function stepRow(by) {
  if (found.length === 0) return;
  const at = found.findIndex(object => object.id === choice.id);
  const from = at >= 0 ? at : by > 0 ? -1 : found.length;
  const next = Math.max(0, Math.min(from + by, found.length - 1));
  choose(found[next].id, { from: 'list' });
  scrollToRow(next);
  drawRows();
}

// Shows the row of what is chosen. A search that leaves it out is ended.
function showRow() {
  if (choice.id !== null && choice.from !== 'list' && !found.some(object => object.id === choice.id)) {
    $('search').value = '';
    $('filter').value = 'all';
    refill();
  }
  const at = found.findIndex(object => object.id === choice.id);
  if (at >= 0) scrollToRow(at);
  drawRows();
}

// ---- the start

function keyInList(event) {
  const page = Math.max(1, Math.floor(list.clientHeight / ROW) - 1);
  const by = { ArrowDown: 1, ArrowUp: -1, PageDown: page, PageUp: -page, Home: -found.length, End: found.length }[event.key];
  if (by === undefined || event.ctrlKey || event.altKey || event.metaKey) return;
  event.preventDefault();
  event.stopPropagation();
  stepRow(by);
}

function keyInSearch(event) {
  if (event.key === 'Escape') {
    $('search').value = '';
    refill();
    $('search').blur();
  } else if (event.key === 'Enter') stepRow(event.shiftKey ? -1 : 1);
  else if (event.key === 'ArrowDown' || event.key === 'ArrowUp') {
    event.preventDefault();
    stepRow(event.key === 'ArrowDown' ? 1 : -1);
  }
}

function startObjects() {
  const kinds = [...new Set(model.objects.map(object => object.kind))].sort();
  $('filter').append(...FILTERS.map(([value, textContent]) => make('option', { value, textContent })),
    make('optgroup', { label: 'Kinds' }, ...kinds.map(kind => make('option', { value: kind, textContent: kind }))));
  $('search').oninput = () => { list.scrollTop = 0; refill(); };
  $('search').onkeydown = event => { keyInSearch(event); event.stopPropagation(); };
  $('filter').onchange = () => { list.scrollTop = 0; refill(); };
  list.onscroll = drawRows;
  list.onkeydown = keyInList;
  if (model.about.objects_left_out > 0) {
    $('search-row').after(make('p', { className: 'sentence', textContent: `${plural(model.about.objects_left_out, 'object')} left out of this page.` }));
  }
  new ResizeObserver(drawRows).observe(list);
  refill();
}

// The objects as a table for paper.
const MOST_PRINTED = 3000;

function printedObjects() {
  const heads = ['ID', 'Kind', 'Name or text', 'Byte', 'Named by'].map(textContent => make('th', { textContent, scope: 'col' }));
  const lines = model.objects.slice(0, MOST_PRINTED).map(object => make('tr', {}, ...[object.id, object.kind, object.name ?? object.text ?? '', object.at ?? '',
    [...new Set(object.parents.map(([id]) => id))].join(', ')].map(textContent => make('td', { textContent }))));
  const left = model.objects.length - lines.length;
  return make('table', { id: 'printed' }, ...left > 0 ? [make('caption', { textContent: `The first ${lines.length} objects; ${left} more are not printed.` })] : [],
    make('thead', {}, make('tr', {}, ...heads)), make('tbody', {}, ...lines));
}
