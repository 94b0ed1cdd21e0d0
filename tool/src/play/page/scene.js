// The graph of the present moment, the two chosen members, and what they may do.

const SIGNS = { grant: '✓', deny: '✗', refuse: '!' };
const ANSWERS = { grant: 'granted', deny: 'denied', refuse: 'refused' };
const kind = (answer) => answer.split(' ')[0];

/** Draws the graph; members can be clicked, or reached by Tab and chosen by Enter. */
function drawScene() {
  const { told } = state;
  $('moment').textContent = told.title;
  $('picture').innerHTML = told.picture;
  $('legend').innerHTML = told.legend;
  for (const node of $('picture').querySelectorAll('.node')) {
    const name = told.members[node.dataset.member];
    node.setAttribute('tabindex', '0');
    node.setAttribute('role', 'button');
    node.setAttribute('aria-label', name);
    node.onclick = () => choose(name);
    node.onkeydown = (press) => {
      if (press.key !== 'Enter' && press.key !== ' ') return;
      press.preventDefault();
      choose(name);
    };
    node.classList.toggle('from', name === state.from);
    node.classList.toggle('to', name === state.to);
  }
}

/** The first click names who asks, the second who is asked, the third begins again. */
function choose(name) {
  if (state.from === null || state.to !== null) Object.assign(state, { from: name, to: null });
  else state.to = name;
  refresh();
}

function drawChoice() {
  const { told } = state;
  for (const end of ['from', 'to']) {
    const names = [['', 'choose'], ...told.members.map((name) => [name, name])];
    fill($(end), names, state[end] ?? '');
  }
  $('swap').disabled = state.from === null || state.to === null;
  const both = state.from !== null && state.to !== null;
  $('hint').textContent = both
    ? `What ${state.from} may do to ${state.to}. Click an event to make the request${instead()}.`
    : state.from === null
      ? 'Click a member in the graph: who asks. Then another, or the same: who is asked.'
      : `${state.from} asks. Click who is asked.`;
  $('looks').replaceChildren(...(told.looks ?? []).map(look));
}

/** Which requests another one would take the place of. */
function instead() {
  const later = state.requests.length - state.at;
  if (!later) return '';
  return later === 1 ? ', in place of the later one' : `, in place of the ${later} later ones`;
}

/** An event with its answer: a button that makes the request. */
function look({ event, answer, because }) {
  const item = make('li');
  const button = make('button', '', event);
  button.type = 'button';
  button.onclick = () => ask(event);
  const words = make('div', 'reason');
  const shown = make('span', `answer ${kind(answer)}`, `${SIGNS[kind(answer)]} `);
  shown.append(make('span', 'would', 'would be '), ANSWERS[kind(answer)]);
  words.append(shown);
  words.append(...(because ?? []).map(reason));
  // In a low window only the beginning is seen.
  words.title = (because ?? []).map((line) => line.trim()).join('\n');
  item.append(button, words);
  return item;
}

/** A line of a reason. Why a definition holds or fails is told under it, with two blanks more. */
function reason(line) {
  const shown = make('div', '', line.trimStart());
  const depth = (line.length - line.trimStart().length) / 2;
  if (depth) shown.className = 'under';
  shown.style.paddingLeft = `${depth * 1.1}rem`;
  return shown;
}

/** Makes a request. It takes the place of those that were taken back; they can be brought back. */
function ask(event) {
  const { requests, at, end, from, to } = state;
  state.dropped = at < requests.length ? { requests, at, end } : null;
  state.requests = [...requests.slice(0, at), [event, from, to]];
  state.at = state.end = state.requests.length;
  refresh();
}

/** The choices of a select, kept as they are where nothing changed. */
function fill(select, choices, value) {
  const has = ([key, text], index) => select.options[index].value === key && select.options[index].text === text;
  const same = select.options.length === choices.length && choices.every(has);
  if (!same) select.replaceChildren(...choices.map(([key, text]) => new Option(text, key)));
  select.value = value;
}
