// What events cost, as bars, and what the pool needs of a terminal.

const MOST_COSTS = 200;  // until all are asked for
const ALLOWED = 1000000;  // steps of an event

const paragraph = (text, className = 'sentence') => make('p', { className, textContent: text });

// A bar for a part of a whole, which is not told by it alone.
function bar(value, most, className = '') {
  const filled = make('i', { className });
  filled.style.width = `${Math.max(0.6, Math.min(100, 100 * value / Math.max(1, most)))}%`;
  return make('span', { className: 'bar' }, filled);
}

// ---- costs

function costRow({ object, event_name, steps }, most) {
  const row = make('button', { type: 'button', className: 'cost', onclick: () => choose(object.id) },
    make('span', { className: 'steps', textContent: count(steps) }), make('span', { textContent: `${labelOf(object)}, ${event_name}` }),
    bar(steps, most, steps > ALLOWED ? 'error' : ''));
  row.dataset.id = object.id;
  return row;
}

const UNKNOWN = 'No costs are known: a macro ends inside a command (R06), or macros trigger each other in a circle (R11).';

function showCosts() {
  const panel = $('costs-panel'), { costs, about } = model, most = costs[0]?.steps ?? 1;
  panel.onkeydown = event => stepFocus(event, [...panel.querySelectorAll('.cost')]);
  if (about.costs_known === 0) return panel.append(paragraph(UNKNOWN, 'sentence bad'));
  if (costs.length === 0) return panel.append(paragraph('No event costs a step.', 'sentence good'));
  panel.append(paragraph(`Steps that an event can take, the dearest first. At most ${count(ALLOWED)} are allowed.`),
    ...costs.slice(0, MOST_COSTS).map(cost => costRow(cost, most)));
  if (costs.length > MOST_COSTS) {
    panel.append(make('button', { type: 'button', className: 'more', textContent: `${count(costs.length - MOST_COSTS)} more`,
      onclick: event => event.target.replaceWith(...costs.slice(MOST_COSTS).map(cost => costRow(cost, most))) }));
  }
  if (about.events_left_out > 0) panel.append(paragraph(`${plural(about.events_left_out, 'event')} left out of this page.`));
}

// ---- needs

const LACKS = { mask: 'the area of a mask', key: 'the area of a key', keys: 'the number of soft keys' };

function verdict() {
  const { mask_width, mask_height, keys } = model.about, { lacks } = model.needs, terminal = `a terminal of ${mask_width}x${mask_height} with ${plural(keys, 'soft key')}`;
  if (lacks === null) return paragraph('It is not judged whether the pool fits a terminal, since a terminal refuses it or bytes are unread.', 'sentence bad');
  if (lacks.length === 0) return paragraph(`The pool fits ${terminal}.`, 'sentence good');
  return paragraph(`The pool does not fit ${terminal}: too small is ${lacks.map(each => LACKS[each] ?? each).join(', and ')}.`, 'sentence bad');
}

// A number that is needed beside the one that the terminal has.
function need(title, needed, had, unit, by) {
  const isShort = had !== null && needed > had;
  return make('div', { className: 'need' }, make('b', { textContent: title }),
    make('span', { className: isShort ? 'bad' : '', textContent: `${count(needed)}${had === null ? '' : ` of ${count(had)}`}${unit}` }),
    ...had === null ? [] : [bar(needed, had, isShort ? 'error' : 'good')],
    ...by === null ? [] : [make('div', { className: 'chips' }, ...by)]);
}

const byChild = child => child === null ? null : [chip(child.object.id), chip(child.child.id, `: ${child.width}x${child.height} at ${child.x},${child.y}`)];

function fontOf({ size, width, height, texts }) {
  const title = `Font size ${size}${width === undefined || width === null ? '' : `, ${width}x${height}`}`;
  const ids = [...new Set(texts.map(text => text.object.id))];
  return make('details', {}, make('summary', { textContent: `${title}: ${plural(ids.length, 'object')}` }),
    make('div', { className: 'chips' }, ...ids.slice(0, 300).map(id => chip(id))));
}

function showNeeds() {
  const panel = $('needs-panel'), { needs, about } = model;
  if (needs === null) return;
  const { mask, key, keys, colour, dearest } = needs, counts = new Map();
  for (const object of model.objects) counts.set(object.kind, (counts.get(object.kind) ?? 0) + 1);
  panel.append(verdict(),
    need('Mask width', mask.width, about.mask_width, ' pixels', byChild(mask.width_by)),
    need('Mask height', mask.height, about.mask_height, ' pixels', byChild(mask.height_by)),
    need('Key width', key.width, about.key_width, ' pixels', byChild(key.width_by)),
    need('Key height', key.height, about.key_height, ' pixels', byChild(key.height_by)),
    need('Soft keys', keys?.number ?? 0, about.keys, '', keys === null ? null : [chip(keys.object.id)]),
    need('Colours', needs.colours, null, '', colour === null ? null : [chip(colour.object.id, `: colour ${colour.number}`)]),
    ...needs.longest_chain === null ? [] : [need('Longest chain', needs.longest_chain, null, needs.longest_chain === 1 ? ' inclusion' : ' inclusions', null)],
    ...dearest === null ? [] : [need('Dearest event', dearest.steps, null, ' steps', [chip(dearest.object.id, `: ${dearest.event_name}`)])],
    make('h3', { textContent: 'Fonts' }), ...needs.fonts.map(fontOf),
    ...needs.fonts.length === 0 ? [paragraph('none')] : [],
    make('h3', { textContent: 'Kinds' }), make('div', { className: 'chips' }, ...needs.kinds.map(({ kind }) => make('button', { type: 'button', className: 'chip',
      textContent: `${kind} ${count(counts.get(kind) ?? 0)}`, onclick: () => showKind(kind) }))));
}

// Shows the objects of a kind in the list.
function showKind(kind) {
  openTab('objects');
  $('search').value = '';
  $('filter').value = kind;
  list.scrollTop = 0;
  refill();
}
