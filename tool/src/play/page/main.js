// What the page knows, and how it asks for the rest.

const begin = JSON.parse($('begin').textContent);
const state = {
  kept: begin.kept, // what the folder has
  requests: begin.kept.requests,
  end: begin.kept.requests.length, // so many count; the others were taken back
  at: begin.kept.requests.length, // so many are made at the moment that is looked at
  dropped: null, // the requests, and where they stood, before a request took the place of later ones
  from: null,
  to: null,
  who: null, // the event of the table
  chosen: null, // the same, if it was chosen there
  told: null, // the last answer without mistakes
};
let asked = 0;
let waiting = 0;

const post = async (path, body) => {
  const reply = await fetch(path, { method: 'POST', body: JSON.stringify(body) });
  if (!reply.ok) throw new Error((await reply.text()).trim());
  return reply.json();
};

/** Asks for everything and draws it. An answer that is late is not looked at. */
async function refresh() {
  const number = ++asked;
  const source = $('source').value;
  const { requests, at, from, to } = state;
  const pair = from !== null && to !== null ? [from, to] : null;
  try {
    const told = await post('told', { source, requests, at, pair, who: state.who });
    if (number === asked) draw(source, told);
  } catch (error) {
    if (number === asked) fail(error);
  }
}

function draw(source, told) {
  const { mistakes } = told;
  show(source, mistakes);
  listMistakes(mistakes, told.warnings);
  document.body.classList.toggle('stale', mistakes.length > 0);
  for (const card of document.querySelectorAll('.graph-card, .asking, .story, .who')) card.inert = mistakes.length > 0;
  $('size').className = mistakes.length ? 'wrong' : '';
  $('size').textContent = mistakes.length ? `${mistakes.length} ${mistakes.length === 1 ? 'mistake' : 'mistakes'}` : '';
  $('room').textContent = mistakes.length
    ? ''
    : `${told.entries} of 256 entries, ${told.past} of 32 about the past; a request works out ${told.effort}`;
  markSaved();
  document.body.dataset.drawn = asked;
  if (mistakes.length) {
    if (!state.told) drawNothing(mistakes[0]);
    return;
  }
  state.told = told;
  // Who or what is no longer declared cannot stay chosen.
  const known = (name) => (told.members.includes(name) ? name : null);
  const chosen = [state.from, state.to].map(known);
  const events = [state.chosen, state.requests[state.at - 1]?.[0], state.who, told.events.at(-1)];
  const who = events.find((name) => told.events.includes(name)) ?? null;
  const again = who !== state.who || chosen[0] !== state.from || chosen[1] !== state.to;
  Object.assign(state, { from: chosen[0], to: chosen[0] === null ? null : chosen[1], who });
  $('aloud').innerHTML = told.aloud;
  drawScene();
  drawChoice();
  drawStory();
  drawWhy();
  drawWho();
  if (again) refresh();
}

/** What is said where nothing can be drawn yet. */
function drawNothing({ line }) {
  const where = line ? ` on line ${line}` : '';
  for (const place of ['aloud', 'picture', 'hint', 'strip', 'why', 'table']) {
    const said = make(place === 'strip' ? 'li' : place === 'hint' ? 'span' : 'p', 'quiet');
    said.textContent = `Fix the mistake${where} to see this.`;
    $(place).replaceChildren(said);
  }
}

function fail(error) {
  $('size').className = 'wrong';
  $('size').textContent = error instanceof TypeError
    ? 'No answer: the program has ended. Copy what you need before you close this page.'
    : error.message;
}

const present = () => ({ source: $('source').value, requests: state.requests.slice(0, state.end) });
const changed = () => JSON.stringify(present()) !== JSON.stringify(state.kept);

function markSaved() {
  $('save').disabled = !changed();
}

async function save(anyway) {
  const now = present();
  try {
    const reply = await post('save', { now, before: state.kept, anyway });
    $('said').textContent = reply.said;
    $('said').className = reply.done ? '' : 'wrong';
    $('anyway').hidden = !reply.changed;
    if (reply.done) state.kept = reply.kept;
    markSaved();
  } catch (error) {
    fail(error);
  }
}

$('source').value = begin.kept.source;
$('source').setSelectionRange(0, 0);
if (begin.stored) {
  const code = (text) => make('code', '', text);
  $('source').readOnly = true;
  $('stored').hidden = false;
  $('stored').append(
    'Stored with a past, which a source cannot say: requests go on from there, and Save writes them. To edit the'
      + ' terms, ',
    code(`cuckooormolu source ${begin.folder} -o new/terms.say`),
    ', then ',
    code(`cuckooormolu revise ${begin.folder} new --store revised/terms.tsv`),
    '.',
  );
}
$('source').addEventListener('input', () => {
  $('said').textContent = '';
  show($('source').value, []);
  clearTimeout(waiting);
  waiting = setTimeout(refresh, 120);
});
$('source').addEventListener('scroll', follow);
new ResizeObserver(() => {
  number();
  follow();
}).observe($('source'));
for (const end of ['from', 'to']) {
  $(end).onchange = () => {
    state[end] = $(end).value || null;
    refresh();
  };
}
$('swap').onclick = () => {
  [state.from, state.to] = [state.to, state.from];
  refresh();
};
$('event').onchange = () => {
  state.chosen = state.who = $('event').value;
  refresh();
};
$('table').onclick = chooseCell;
$('undo').onclick = () => count(state.end - 1);
$('redo').onclick = () => count(state.end + 1);
$('start').onclick = () => goTo(0);
$('restore').onclick = restore;
$('save').onclick = () => save(false);
$('anyway').onclick = () => save(true);
document.addEventListener('keydown', (press) => {
  if (press.key !== 's' || !(press.ctrlKey || press.metaKey)) return;
  press.preventDefault();
  save(false);
});
addEventListener('beforeunload', (leaving) => changed() && leaving.preventDefault());
show(begin.kept.source, []);
refresh();
