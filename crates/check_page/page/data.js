'use strict';
// The data of the page: its blocks, read into one model. The other files show the model, and do not change it.

const NEWLINE = String.fromCharCode(10);
const TICK = String.fromCharCode(96);
const SEVERITIES = ['error', 'warning', 'note'];
// The codes of faults of a field, whose byte lies in the record of an object in force.
const FIELD_FAULTS = ['P04', 'P05'];

const $ = id => document.getElementById(id);
const count = number => number.toLocaleString('en');
const plural = (number, one, many = `${one}s`) => `${count(number)} ${number === 1 ? one : many}`;

// If the page cannot be shown, it says why.
addEventListener('error', event => { if ($('loading')) $('loading').textContent = `The page cannot be shown: ${event.message}`; });

// An element with properties and children. Strings become text, never markup.
function make(tag, properties = {}, ...children) {
  const element = Object.assign(document.createElement(tag), properties);
  element.append(...children);
  return element;
}

// The objects of a data block, one a line.
function linesOf(block) {
  const lines = ($(block)?.textContent ?? '').split(NEWLINE);
  return lines.filter(line => line.trim() !== '').map(line => JSON.parse(line));
}

// ---- the objects

function objectsOf(lines) {
  return lines.map((line, index) => ({ text: null, ...line, index, parents: [], findings: [], costs: [], places: [] }));
}

// An object as its lines show it: its kind, its ID and its name.
function labelOf({ kind, id, name }) {
  return `${kind ?? 'object'} ${id}${name === null || name === undefined ? '' : ` ${TICK}${name}${TICK}`}`;
}

// Notes at each object which others name it.
function connectParents(objects, byId) {
  for (const object of objects) {
    for (const [id, place] of object.references) byId.get(id)?.parents.push([object.id, place]);
  }
}

// ---- the findings

// The object whose record has a byte, if the record is in force.
function objectAt(inOrder, offset) {
  let found = null;
  for (const object of inOrder) {
    if (object.at > offset) break;
    found = object;
  }
  return found;
}

// The object that a finding is about, or null.
function subjectOf({ code, details, offset }, inOrder, byAt) {
  const named = details.object ?? details.path?.[0] ?? null;
  if (named !== null) return named.id;
  if (FIELD_FAULTS.includes(code)) return objectAt(inOrder, offset)?.id ?? null;
  return byAt.get(offset)?.id ?? null;
}

// The other object that a finding is about: what its object names, or a child of it.
const otherOf = ({ details }) => (details.child ?? details.names ?? details.path?.[1] ?? null)?.id ?? null;

function findingsOf(lines, objects, byId) {
  const inOrder = objects.filter(object => object.at !== null).sort((one, other) => one.at - other.at);
  const byAt = new Map(inOrder.map(object => [object.at, object]));
  const findings = lines.filter(line => line.code !== undefined).map(line => (
    { ...line, id: line.severity === 'note' ? null : subjectOf(line, inOrder, byAt), other: otherOf(line) }));
  findings.sort((one, other) => SEVERITIES.indexOf(one.severity) - SEVERITIES.indexOf(other.severity));
  for (const [index, finding] of findings.entries()) {
    finding.index = index;
    byId.get(finding.id)?.findings.push(finding);
  }
  return findings;
}

// ---- the masks

const NUMBERS = ['id', 'around', 'x', 'y', 'width', 'height', 'left', 'top', 'right', 'bottom'];

function masksOf(lines) {
  return lines.map((line, index) => ({ ...line, index, elements: line.elements.map((numbers, at) => (
    { index: at, ...Object.fromEntries(NUMBERS.map((name, k) => [name, numbers[k]])) })) }));
}

// Notes at each object in which masks it is, and at which elements of them. A mask is at -1 of itself.
function connectPlaces(masks, byId) {
  for (const mask of masks) {
    byId.get(mask.id)?.places.push({ mask, index: -1 });
    for (const element of mask.elements) byId.get(element.id)?.places.push({ mask, index: element.index });
  }
}

// ---- the model

function readModel() {
  const objects = objectsOf(linesOf('objects')), byId = new Map(objects.map(object => [object.id, object]));
  const lines = linesOf('findings'), masks = masksOf(linesOf('masks')), costs = linesOf('costs');
  connectParents(objects, byId);
  connectPlaces(masks, byId);
  for (const cost of costs) byId.get(cost.object.id)?.costs.push(cost);
  return {
    about: linesOf('about')[0] ?? { file: '', version: '' },
    counts: lines.find(line => line.code === undefined) ?? { errors: 0, warnings: 0, objects: objects.length },
    rules: new Map(linesOf('rules').map(rule => [rule.code, rule])),
    needs: linesOf('needs')[0] ?? null,
    findings: findingsOf(lines, objects, byId),
    keys: linesOf('keys'), objects, byId, masks, costs,
  };
}

const model = readModel();

// ---- questions to the model

// The words for an ID, also for one that no object has.
const nameOf = id => labelOf(model.byId.get(id) ?? { kind: null, id, name: null });

// The worst severity of some findings, or null.
const worstOf = findings => SEVERITIES.find(severity => findings.some(finding => finding.severity === severity)) ?? null;

// Where an object is seen: its own places, or else those of the nearest objects that name it, with the objects that are seen there.
function seenPlaces(id) {
  const own = model.byId.get(id)?.places ?? [];
  if (own.length > 0) return { places: own, by: [] };
  const seen = new Set([id]);
  let level = [id];
  while (level.length > 0) {
    const parents = level.flatMap(each => model.byId.get(each)?.parents ?? []).map(([parent]) => parent);
    level = [...new Set(parents)].filter(parent => !seen.has(parent));
    for (const each of level) seen.add(each);
    const by = level.filter(each => model.byId.get(each).places.length > 0);
    if (by.length > 0) return { places: by.flatMap(each => model.byId.get(each).places), by };
  }
  return { places: [], by: [] };
}

// The number of keys or masks that a pointer leads to in the end: that of the object itself, if it is no pointer.
function pointedBy(id) {
  let at = id;
  for (let step = 0; step < 32 && model.byId.get(at)?.kind === 'Object Pointer'; step += 1) {
    at = model.byId.get(at).references.find(([, place]) => place === 'value')?.[0] ?? null;
  }
  return at;
}
