// The tables below the screen: the differences, and the pools with their findings.

const MOST_ROWS = 2000;  // of a table; what is more is counted
const NOT_HERE = ' (not among the lines of this page)';
const SEVERITIES = ['error', 'warning', 'note'];

const sentence = (text, className = 'sentence') => make('p', { className, textContent: text });

// A table. A row is an array of cells, and may have an index to which a click moves the cursor.
function table(className, heads, rows) {
  const body = make('tbody', {}, ...rows.slice(0, MOST_ROWS).map(tableRow));
  const rest = rows.length > MOST_ROWS ? [make('caption', { textContent: `the first ${MOST_ROWS} of ${rows.length}` })] : [];
  const head = make('thead', {}, make('tr', {}, ...heads.map(text => make('th', { textContent: text, scope: 'col' }))));
  return make('table', { className }, ...rest, head, body);
}

function tableRow({ cells, index = null }) {
  const row = make('tr', {}, ...cells.map(cell => cell instanceof Node ? make('td', {}, cell) : make('td', { textContent: cell ?? '' })));
  if (index !== null) leadTo(row, index);
  return row;
}

// A click on what is told of some lines, or Enter in it, moves the cursor to one of them, if they are in the page.
function leadIfHere(element, isHere, index) {
  if (isHere) leadTo(element, index); else element.append(NOT_HERE);
  return element;
}

function leadTo(element, index) {
  element.classList.add('leads');
  element.dataset.index = index;
  element.tabIndex = 0;
  element.onclick = () => moveTo(index);
  element.onkeydown = event => { if (event.key === 'Enter') { event.stopPropagation(); moveTo(index); } };
}

// Lights what leads to the cursor's line, and brings it into sight.
function lightRows() {
  for (const row of document.querySelectorAll('.panel .leads')) row.classList.toggle('lit', Number(row.dataset.index) === cursor.index);
  document.querySelector('.panel.open .leads.lit')?.scrollIntoView({ block: 'nearest' });
}

// ---- differences

const messageCell = (words, bytes) => make('div', {}, make('span', { textContent: words }),
  ...bytes === null ? [] : [make('code', { textContent: bytes })]);

function differenceRow(difference) {
  const { destination, object, name, function: code } = difference;
  const about = object === null ? '' : `, ${objectName(destination, object) ?? `object ${object}`}`;
  return { index: difference.isHere ? difference.index : null, cells: [
    String(difference.anchor), `${seconds(difference.time)} s`,
    wordsOfAddress(destination), `${name ?? `function ${code}`}${about}`,
    messageCell(ourMessage(difference), difference.ours), messageCell(recordedMessage(difference), difference.recorded),
    ...difference.why ? [difference.why] : [],
  ] };
}

function wordsOfAnswers({ same, differ, ours_alone, theirs_alone, ignored, not_compared }) {
  return `Answers: ${same} the same, ${differ} differ, ${ours_alone} of this terminal alone, ${theirs_alone} of the recorded one alone`
    + `${ignored > 0 ? `, ${ignored} ignored` : ''}. Not compared: ${plural(not_compared, 'frame')} of transport and claims.`;
}

const ALIKE = 'The recorded terminal answered as this one does: there is no difference.';

function showDifferences() {
  const heads = ['Line', 'Time', 'To', 'Message', 'This terminal', 'Recorded terminal'];
  if (model.differences.some(difference => difference.why)) heads.push('Cause');
  const answers = model.answers;
  $('differences').append(
    ...answers === null ? [sentence(`Nothing was compared: the log has no message of a terminal at ${model.about.own}.`)] : [],
    ...answers !== null && model.differences.length === 0 ? [sentence(ALIKE, 'good')] : [],
    ...model.loads.map(({ line, source, request }) => sentence(`Line ${line}: ${source} ${request}; if the recorded terminal had it, `
      + 'it is not in this log.')),
    ...model.differences.length > 0 ? [table('wide', heads, model.differences.map(differenceRow))] : [],
    ...answers === null ? [] : [sentence(wordsOfAnswers(answers))],
    ...model.leftOut.map(({ count, name, function: code, why }) =>
      sentence(`Left out: ${count} of ${name ?? `function ${code}`}: ${why}.`)),
  );
}

// ---- pools

function findingsOf(findings) {
  const groups = new Map(findings.map(({ code, name }) => [`${code} ${name}`, []]));
  for (const finding of findings) groups.get(`${finding.code} ${finding.name}`).push(finding);
  const worth = ([, [first]]) => SEVERITIES.indexOf(first.severity);
  return [...groups].sort((one, other) => worth(one) - worth(other)).map(([name, group]) => make('details', { open: group.length <= 20 },
    make('summary', {}, make('span', { className: `severity ${group[0].severity}`, textContent: group[0].severity }),
      ` ${name}: ${plural(group.length, 'finding')}`),
    make('ul', {}, ...group.slice(0, MOST_ROWS).map(({ offset, message }) => make('li', {},
      make('code', { textContent: offset === null || offset === undefined ? '' : `byte ${offset}` }), ` ${message}`)))));
}

function showUpload(upload) {
  const title = make('h3', { className: lookOfUpload(upload), textContent: wordsOfUpload(upload) });
  return make('article', {}, leadIfHere(title, upload.isHere, upload.last), ...findingsOf(upload.findings));
}

const pools = model.uploads.filter(upload => ['pool', 'update', 'unended'].includes(upload.kind));

function showPools() {
  $('pools-panel').append(...model.uploads.map(showUpload),
    ...pools.length === 0 ? [sentence('No pool is uploaded in this log.')] : []);
}
