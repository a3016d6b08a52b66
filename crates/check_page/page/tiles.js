// The keys of the Soft Key Masks as tiles, in a group for each mask.

const tileBoxes = new Map();  // the tiles of a key, by its ID
const tileGroups = new Map();  // the groups, by the ID of the Soft Key Mask
const MOST_TILES = 2000;

function tileOf(key, number) {
  const box = make('span', { className: 'key' });
  box.append(pictureOf(key.svg, `k${number}-`));
  const name = key.name ?? '';
  const tile = make('button', { type: 'button', className: 'tile', title: `${labelOf(key)}, key code ${key.code}`,
    onclick: () => choose(key.id, { from: 'tile' }) }, box,
  make('span', { className: 'words' }, make('b', { textContent: `Key ${key.id}` }), ` code ${key.code}`,
    ...name === '' ? [] : [make('span', { className: 'name', textContent: name })]), ...badges(model.byId.get(key.id)?.findings ?? []));
  tileBoxes.set(key.id, [...tileBoxes.get(key.id) ?? [], tile]);
  return tile;
}

// The keys of a Soft Key Mask in their order. Pointers are followed.
const keysOf = object => object.references.filter(([, place]) => place.startsWith('key ')).map(([id]) => pointedBy(id));

function groupOf(object, title, tiles) {
  const heading = object === null ? make('h3', { textContent: title })
    : make('h3', {}, make('button', { type: 'button', className: 'title', textContent: title, onclick: () => choose(object.id, { from: 'tile' }) }));
  const group = make('section', { className: 'keys' }, heading, make('div', { className: 'tiles' }, ...tiles));
  if (object !== null) tileGroups.set(object.id, group);
  return group;
}

function startTiles() {
  const keys = new Map(model.keys.map(key => [key.id, key])), listed = new Set(), groups = [];
  let number = 0;
  for (const object of model.objects.filter(each => each.kind === 'Soft Key Mask')) {
    const own = keysOf(object).map(id => keys.get(id)).filter(key => key !== undefined);
    for (const key of own) listed.add(key.id);
    const shown = own.slice(0, Math.max(0, MOST_TILES - number));
    const users = object.parents.length === 0 ? '' : `, of ${[...new Set(object.parents.map(([id]) => nameOf(id)))].slice(0, 4).join(', ')}`;
    groups.push(groupOf(object, `${labelOf(object)}${users}`, shown.map(key => tileOf(key, number += 1))));
  }
  const others = model.keys.filter(key => !listed.has(key.id));
  if (others.length > 0) {
    groups.push(groupOf(null, 'In no Soft Key Mask', others.slice(0, Math.max(0, MOST_TILES - number)).map(key => tileOf(key, number += 1))));
  }
  if (groups.length > 0) pictures.append(make('h2', { textContent: 'Keys' }), ...groups);
  if (model.about.keys_left_out > 0) {
    pictures.append(make('p', { className: 'empty', textContent: `${plural(model.about.keys_left_out, 'key')} left out of this page.` }));
  }
}

// Lights the tiles of what is chosen, and returns them.
function showTiles() {
  for (const lit of pictures.querySelectorAll('.tile.lit, .keys.lit')) lit.classList.remove('lit');
  const tiles = tileBoxes.get(choice.id) ?? [], group = tileGroups.get(choice.id);
  const found = group === undefined ? tiles : [...tiles, group];
  for (const each of found) each.classList.add('lit');
  return found;
}
