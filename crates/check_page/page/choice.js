// What is chosen: an object, and a finding of it if one was chosen. The other files show the choice when it changes.

const choice = { id: null, finding: null, from: null };
const listeners = [];
const whenChosen = listener => listeners.push(listener);

// Chooses an object, or nothing. `from` is the part of the page that was used for it, which then does not move.
function choose(id, { finding = null, from = null } = {}) {
  Object.assign(choice, { id, finding, from });
  for (const listener of listeners) listener();
  history.replaceState(null, '', id === null ? '#' : `#${id}`);
}

// Chooses a finding with its object.
const chooseFinding = (finding, from) => choose(finding.id, { finding, from });

// The next finding, or the one before, from the one that is chosen.
function stepFinding(by) {
  const total = model.findings.length;
  if (total === 0) return say('The pool has no findings.');
  const at = choice.finding?.index ?? model.byId.get(choice.id)?.findings[0]?.index ?? (by > 0 ? -1 : total);
  const finding = model.findings[at + by];
  if (finding === undefined) return say(by > 0 ? 'This is the last finding.' : 'This is the first finding.');
  openTab('findings');
  chooseFinding(finding, null);
}

let silence = 0;

// Shows a sentence for a while.
function say(text) {
  $('note').textContent = text;
  clearTimeout(silence);
  silence = setTimeout(() => { $('note').textContent = ''; }, 2500);
}

// A button that chooses an object. An ID that no object has is only shown.
function chip(id, after = '') {
  const words = `${nameOf(id)}${after}`;
  if (!model.byId.has(id)) return make('span', { className: 'chip missing', textContent: words, title: 'This object is not there' });
  const severity = worstOf(model.byId.get(id).findings);
  return make('button', { type: 'button', className: `chip ${severity ?? ''}`, textContent: words, onclick: () => choose(id) });
}

// Moves the focus among some elements by the arrow keys.
function stepFocus(event, elements) {
  const by = { ArrowDown: 1, ArrowUp: -1 }[event.key];
  if (by === undefined) return null;
  const next = elements[elements.indexOf(document.activeElement) + by];
  event.preventDefault();
  event.stopPropagation();
  next?.focus();
  return next ?? null;
}
