// What the time line marks: each mark has a lane, a place in time, a look, a text, and the line to which it leads.

const LOOKS = { good: '#7fd48a', bad: '#ff6b61', warn: '#ffc14d', act: '#ffe08a', ask: '#7fb8ff' };
const SET_COLOURS = ['#5aa9e6', '#7cc576', '#e2a04a', '#b48ce0', '#e57fa8', '#5cc9c0', '#c9c25a', '#9aa7b5'];
const setsShown = [...new Set(model.screens.map(screen => screen.set).filter(set => set !== null))];
const colourOfSet = set => set === null ? '#3a4148' : SET_COLOURS[setsShown.indexOf(set) % SET_COLOURS.length];

const isRefused = upload => upload.is_accepted === false;
const isBroken = upload => upload.kind === 'broken' || upload.kind === 'not whole';
const linesFrom = (first, last) => last === null || last === undefined ? `line ${first} on` : `lines ${first} to ${last}`;
const span = time => `${(time / SECOND).toFixed(3)} s`;

// What a report says of an upload, a transfer or a request, in a sentence.
function wordsOfUpload(upload) {
  const way = `${upload.source} to ${upload.destination}`;
  switch (upload.kind) {
    case 'request': return `line ${upload.last_line}: ${upload.source} ${upload.request} at ${upload.destination}`;
    case 'broken': return `line ${upload.last_line}: transfer of ${way} broken off: ${plural(upload.bytes, 'byte')} of parameter group `
      + `${upload.group}, packet ${upload.missing} is missing`;
    case 'not whole': return `at the end: transfer of ${way} not whole: ${plural(upload.bytes, 'byte')} of parameter group `
      + `${upload.group}, packet ${upload.missing} is missing`;
    case 'unended': return `${linesFrom(upload.first_line, null)}: pool of ${way}, ${plural(upload.bytes, 'byte')} in `
      + `${plural(upload.pieces, 'piece')}: its end is not in the log`;
    default: return `${linesFrom(upload.first_line, upload.last_line)}: ${upload.kind} of ${way}, ${plural(upload.bytes, 'byte')} in `
      + `${plural(upload.pieces, 'piece')}: ${upload.verdict}`;
  }
}

function wordsOfGap({ function: code, source, destination, longest, count }) {
  const signal = code === 'FE' ? `VT Status of ${source}` : `maintenance of ${source} to ${destination}`;
  const { first_line, last_line, time } = longest;
  const where = last_line === null ? `from line ${first_line} to the end` : linesFrom(first_line, last_line);
  return `gap: no ${signal} for ${span(time)}, ${where}${count > 1 ? `, the longest of ${count}` : ''}`;
}

// Both messages of a difference, as the lines of a table say them.
const ourMessage = difference => difference.ours === null ? 'none' : difference.ours_words ?? difference.ours;
const recordedMessage = difference => difference.recorded === null ? 'none' : difference.recorded_words ?? difference.recorded;

function wordsOfDifference(difference) {
  return `line ${difference.anchor}: ${difference.name ?? `function ${difference.function}`}: this terminal ${ourMessage(difference)}, `
    + `recorded ${recordedMessage(difference)}`;
}

function lookOfUpload(upload) {
  if (upload.kind === 'request') return 'ask';
  return isRefused(upload) ? 'bad' : isBroken(upload) || upload.kind === 'unended' ? 'warn' : 'good';
}

function uploadMark(upload) {
  const isPoint = isBroken(upload) || upload.kind === 'request';
  const from = atOfIndex(isPoint ? upload.last : upload.index), to = atOfIndex(upload.last);
  return { lane: 'uploads', shape: isBroken(upload) ? 'cross' : isPoint ? 'tick' : 'span', look: lookOfUpload(upload),
    from, to, index: upload.last, text: wordsOfUpload(upload) };
}

function point(lane, look, index, text) {
  return { lane, shape: 'tick', look, from: atOfIndex(index), to: atOfIndex(index), index, text };
}

function marksOf() {
  const operator = model.entries.filter(entry => entry.kind === 'operator');
  const isHere = each => each.isHere, differences = model.differences.filter(isHere);
  const gaps = model.gaps.filter(gap => gap.longest.isHere).map(gap => ({ lane: 'gaps', shape: 'gap', look: 'warn',
    from: atOfIndex(gap.longest.index), to: atOfIndex(gap.longest.last), index: gap.longest.index, text: wordsOfGap(gap) }));
  return [
    ...model.uploads.filter(isHere).map(uploadMark),
    ...operator.map(entry => point('operator', 'act', entry.index, `line ${entry.line}: ${entry.words}`)),
    ...differences.map(difference => point('differences', 'bad', difference.index, wordsOfDifference(difference))),
    ...gaps,
  ];
}

const marks = marksOf();
