// The editor: a text area over a coloured copy of its text, with mistakes underlined.

const $ = (id) => document.getElementById(id);
const WORDS = {
  s: 'member members relation relations event events define first keep when then by',
  p: 'me target here someone nobody anyone',
  w: 'add remove is of as at least some every not and or since once always never previously true false both ways'
    + ' such that denied said',
};
const classes = new Map(Object.entries(WORDS).flatMap(([name, words]) => words.split(' ').map((word) => [word, name])));

/** Stretches of the text with a class each: words of the language, and comments. */
function coloured(text) {
  const stretches = [];
  for (const { 0: word, index } of text.matchAll(/#[^\n]*|[\p{L}_][\p{L}\p{N}_-]*/gu)) {
    const name = word[0] === '#' ? 'n' : classes.get(word);
    if (name) stretches.push({ start: index, end: index + word.length, name });
  }
  return stretches;
}

/** The text with its stretches as spans; they may lie over one another. */
function show(text, mistakes) {
  const wrong = mistakes.map(({ start, end }) => ({ start, end: Math.max(end, start + 1), name: 'bad' }));
  const whole = `${text} `;
  const begins = new Map();
  const ends = new Map();
  const cuts = new Set([0, whole.length]);
  const put = (map, place, name) => map.set(place, [...(map.get(place) ?? []), name]);
  for (const { start, end, name } of [...coloured(text), ...wrong]) {
    put(begins, start, name);
    put(ends, Math.min(end, whole.length), name);
    cuts.add(start).add(Math.min(end, whole.length));
  }
  const places = [...cuts].sort((a, b) => a - b);
  const open = [];
  const pieces = document.createDocumentFragment();
  places.slice(0, -1).forEach((place, index) => {
    for (const name of ends.get(place) ?? []) open.splice(open.indexOf(name), 1);
    open.push(...(begins.get(place) ?? []));
    const piece = whole.slice(place, places[index + 1]);
    if (!open.length) return pieces.append(piece);
    const span = document.createElement('span');
    span.className = open.join(' ');
    span.textContent = piece;
    return pieces.append(span);
  });
  $('shown').replaceChildren(pieces);
  number();
  follow();
}

/** Numbers the lines, each at its beginning: a long one takes several rows. */
function number() {
  const style = getComputedStyle($('source'));
  const { lineHeight, font, tabSize, whiteSpace, overflowWrap } = style;
  const measure = make('div');
  const width = `${$('source').clientWidth - parseFloat(style.paddingLeft) - parseFloat(style.paddingRight)}px`;
  measure.id = 'measure';
  Object.assign(measure.style, { width, font, tabSize, whiteSpace, overflowWrap });
  const lines = $('source').value.split('\n').map((line) => make('div', '', line || ' '));
  measure.append(...lines);
  $('source').parentNode.append(measure);
  const rows = lines.map((line) => Math.max(1, Math.round(line.offsetHeight / parseFloat(lineHeight))));
  measure.remove();
  $('numbers').textContent = `${rows.map((count, index) => `${index + 1}${'\n'.repeat(count)}`).join('')}\n`;
}

/** Keeps the copy and the line numbers beside the text. */
function follow() {
  const { scrollTop, scrollLeft } = $('source');
  $('shown').scrollTo(scrollLeft, scrollTop);
  $('numbers').scrollTop = scrollTop;
}

/** The mistakes and warnings below the text; each leads to its place. */
function listMistakes(mistakes, warnings = []) {
  const marked = warnings.map((warning) => ({ ...warning, warns: true }));
  $('mistakes').replaceChildren(...[...mistakes, ...marked].map((mistake) => {
    const item = make('li', mistake.warns ? 'warning' : '');
    const button = make('button', '', '');
    button.type = 'button';
    const place = mistake.line ? [`Line ${mistake.line}`] : [];
    const head = mistake.warns ? [...place, 'warning'] : place;
    button.append(make('b', '', head.join(', ')), ` ${mistake.message}`);
    if (mistake.advice) button.append(make('span', '', mistake.advice));
    button.onclick = () => {
      $('source').focus();
      $('source').setSelectionRange(mistake.start, mistake.end);
    };
    item.append(button);
    return item;
  }));
}

/** An element with a class and a text. */
function make(tag, name = '', text = '') {
  const element = document.createElement(tag);
  if (name) element.className = name;
  if (text) element.textContent = text;
  return element;
}
