// The trace: a list of rows of one height, of which only those that are seen are in the page. A line of the log is a row; below it are
// the messages of its differences and, if it is open, its frame, its outputs and the changes of the screen.

const ROW = 24, INDENT = 8, LINE_INDENT = 22;  // the indents of details and of words, in letters
const CLOSED = String.fromCharCode(0x25b8), OPEN = String.fromCharCode(0x25be);
const list = $('list');
const trace = { rows: [], open: new Set(), filters: new Set(), columns: 80, cursorRow: -1 };

// ---- which lines are shown

const haystacks = new Map();

// What the search looks into: the words and the frames of a line and of its outputs.
function haystackOf(entry) {
  if (!haystacks.has(entry)) {
    const outputs = entry.outputs.flatMap(output => [output.words, output.frame ?? '']);
    const texts = [String(entry.line), entry.words, entry.frame ?? '', ...outputs];
    haystacks.set(entry, texts.join(' ').toLowerCase());
  }
  return haystacks.get(entry);
}

const FILTERS = {
  commands: entry => entry.isCommand,
  operator: entry => entry.kind === 'operator',
  differences: entry => entry.differs,
};

const wantedText = () => $('search').value.trim().toLowerCase();

// Whether what is searched for is in an output alone. The line is then open.
function isFoundBelow({ words, outputs }, wanted) {
  const has = text => text.toLowerCase().includes(wanted);
  return wanted !== '' && !has(words) && outputs.some(output => has(`${output.frame} ${output.words}`));
}

// The filters of a kind of line add up; the others all have to hold.
function tests() {
  const wanted = wantedText(), address = $('address').value;
  return [
    ...$('hide-packets').checked ? [entry => !entry.isPacket] : [],
    ...address ? [entry => entry.source === address || entry.destination === address] : [],
    ...trace.filters.size > 0 ? [entry => [...trace.filters].some(name => FILTERS[name](entry))] : [],
    ...wanted ? [entry => haystackOf(entry).includes(wanted)] : [],
  ];
}

// ---- rows

// A text in pieces that fit into a row, broken at blanks where there are any.
function wrapped(text, columns) {
  const pieces = [];
  let rest = text;
  while (rest.length > columns) {
    const blank = rest.lastIndexOf(' ', columns), end = blank > columns / 3 ? blank : columns;
    pieces.push(rest.slice(0, end));
    rest = rest.slice(end).trimStart();
  }
  return [...pieces, rest];
}

function differenceRows(difference) {
  const { ours, recorded, why } = difference;
  return [
    ['ours', ['this terminal:', ours, ourMessage(difference)].filter(part => part !== null).join(' ')],
    ['recorded', ['recorded:     ', recorded, recordedMessage(difference)].filter(part => part !== null).join(' ')],
    ...why ? [['why', why]] : [],
  ];
}

const isRefusal = ({ words, refusal = null }) => refusal !== null || words.includes(': refused');

function detailsOf(entry) {
  return [
    ...entry.words.length > trace.columns + INDENT - LINE_INDENT ? [['more', entry.words]] : [],
    ...entry.frame ? [['bytes', entry.frame]] : [],
    ...entry.outputs.map(output => [isRefusal(output) ? 'output refused' : 'output',
      [output.frame ?? `operator: refused ${output.refusal ?? ''}`, output.words].join('  ')]),
    ...entry.removed.map(text => ['removed', `- ${text}`]),
    ...entry.added.map(text => ['added', `+ ${text}`]),
  ];
}

function rowsOf(entry, wanted) {
  const isOpen = trace.open.has(entry) || isFoundBelow(entry, wanted);
  const details = [...entry.differences.flatMap(differenceRows), ...isOpen ? detailsOf(entry) : []];
  return [{ entry, look: 'line', isOpen },
    ...details.flatMap(([look, text]) => wrapped(text, trace.columns).map(piece => ({ entry, look, text: piece })))];
}

function refill() {
  trace.columns = Math.max(30, Math.floor((list.clientWidth - 24) / widthOfLetter()) - INDENT);
  const needed = tests(), wanted = wantedText(), shown = model.entries.filter(entry => needed.every(test => test(entry)));
  trace.rows = shown.flatMap(entry => rowsOf(entry, wanted));
  $('rows').style.height = `${trace.rows.length * ROW}px`;
  $('count').textContent = shown.length === model.entries.length ? plural(shown.length, 'line')
    : `${shown.length.toLocaleString('en')} of ${plural(model.entries.length, 'line')}`;
  followInTrace();
  drawRows();
}

function widthOfLetter() {
  const probe = make('span', { textContent: 'x'.repeat(100), className: 'probe' });
  $('rows').append(probe);
  const width = probe.getBoundingClientRect().width / 100;
  probe.remove();
  return width || 8;
}

// ---- drawing

// A text with the part marked that is searched for.
function found(text) {
  const wanted = wantedText(), at = wanted ? text.toLowerCase().indexOf(wanted) : -1;
  if (at < 0) return [text];
  return [text.slice(0, at), make('mark', { textContent: text.slice(at, at + wanted.length) }), text.slice(at + wanted.length)];
}

function classOf({ entry, look }, isLit) {
  if (look !== 'line') return `row ${look}`;
  const marks = { lit: isLit, own: entry.kind === 'frame' && entry.source === model.about.own, differs: entry.differs,
    refused: isRefusal(entry) };
  return ['row', look, entry.kind, ...Object.keys(marks).filter(name => marks[name])].join(' ');
}

function drawRow(row, k) {
  const { entry, look, text, isOpen } = row, isLine = look === 'line', isLit = isLine && k === trace.cursorRow;
  const element = make('div', { className: classOf(row, isLit), title: isLine ? entry.words : '' });
  element.style.top = `${k * ROW}px`;
  element.dataset.line = entry.line;
  if (!isLine) { element.append(...found(text)); return element; }
  const hasMore = detailsOf(entry).length > 0, mark = !hasMore ? '' : isOpen ? OPEN : CLOSED;
  element.append(make('span', { className: 'toggle', textContent: mark }), make('span', { className: 'number', textContent: entry.line }),
    make('span', { className: 'at', textContent: entry.time === null ? '' : seconds(entry.time, 6) }),
    make('span', { className: 'words' }, ...found(entry.words)));
  element.onclick = event => { if (event.target.className === 'toggle') toggle(entry); else choose(entry); };
  element.ondblclick = () => toggle(entry);
  return element;
}

function drawRows() {
  const first = Math.max(0, Math.floor(list.scrollTop / ROW) - 3), count = Math.ceil(list.clientHeight / ROW) + 6;
  const rows = trace.rows.slice(first, first + count).map((row, k) => drawRow(row, first + k));
  if (trace.rows.length === 0) rows.push(make('p', { className: 'empty', textContent: sentenceOfNothing() }));
  $('rows').replaceChildren(...rows);
}

const sentenceOfNothing = () => model.entries.length === 0 ? 'The log has no line.' : 'No line is as the search and the filters want it.';

// ---- the cursor in the list

function choose(entry) {
  list.focus({ preventScroll: true });
  moveTo(entry.index);
}

function toggle(entry) {
  if (!trace.open.delete(entry)) trace.open.add(entry);
  refill();
}

// The row of the cursor's line, or of the shown line before it.
function rowOfCursor() {
  const last = lastWhere(trace.rows, row => row.entry.index <= cursor.index);
  return last < 0 ? -1 : lastWhere(trace.rows, row => row.entry.index < trace.rows[last].entry.index) + 1;
}

// Scrolls to the cursor's line and what is below it, if they are not in sight.
function followInTrace() {
  trace.cursorRow = rowOfCursor();
  const entry = trace.rows[trace.cursorRow]?.entry, height = list.clientHeight;
  const top = Math.max(0, trace.cursorRow) * ROW, end = (lastWhere(trace.rows, row => row.entry.index <= (entry?.index ?? 0)) + 1) * ROW;
  const needed = Math.min(end - top, height - 2 * ROW);
  if (top < list.scrollTop || top + needed > list.scrollTop + height) list.scrollTop = top - (height - needed) / 2;
}

// Moves to the next or the previous line that is shown.
function stepLine(direction) {
  const lines = trace.rows.filter(row => row.look === 'line');
  const k = lastWhere(lines, row => direction > 0 ? row.entry.index <= cursor.index : row.entry.index < cursor.index);
  const row = lines[direction > 0 ? k + 1 : k];
  if (row) moveTo(row.entry.index);
}

function startTrace() {
  const addresses = new Set(model.entries.flatMap(entry => [entry.source, entry.destination]).filter(address => address));
  $('address').append(make('option', { value: '', textContent: 'all addresses' }), ...[...addresses].sort().map(address =>
    make('option', { value: address, textContent: address === 'FF' ? 'to all' : `address ${address}` })));
  for (const control of [$('search'), $('address'), $('hide-packets')]) control.addEventListener('input', refill);
  for (const chip of document.querySelectorAll('.filter')) {
    chip.onclick = () => {
      const name = chip.dataset.filter;
      if (!trace.filters.delete(name)) trace.filters.add(name);
      chip.ariaPressed = String(trace.filters.has(name));
      refill();
    };
  }
  list.addEventListener('scroll', drawRows, { passive: true });
  new ResizeObserver(refill).observe(list);
  whenMoved(() => { followInTrace(); drawRows(); });
}
