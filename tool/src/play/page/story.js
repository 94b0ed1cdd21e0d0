// The requests so far, why the last was answered so, and who may do what.

/** The requests in order. Those that were taken back stay, until another is made; those after the moment that is
    looked at are dim. */
function drawStory() {
  const { told, at, end } = state;
  const begin = make('button', 'start', told.begun);
  begin.onclick = () => goTo(0);
  const chips = told.steps.map((step, index) => {
    const name = kind(step.answer);
    const words = `${SIGNS[name]} ${step.event} ${step.from} → ${step.to}`;
    const when = index >= end ? ' back' : index >= at ? ' later' : '';
    const chip = make('button', `${name}${when}`, words);
    chip.onclick = () => goTo(index + 1);
    chip.title = `${ANSWERS[name]}${step.made ? `; moment ${step.moment}` : ''}`;
    if (step.made) chip.append(' ', make('sup', '', step.moment));
    return chip;
  });
  const items = [begin, ...chips].map((button, index) => {
    button.type = 'button';
    if (index === at) button.setAttribute('aria-current', 'step');
    const item = make('li');
    item.append(button);
    return item;
  });
  $('strip').replaceChildren(...items);
  // The page itself stays where it is. The line around the request is seen, too.
  const { offsetTop, offsetHeight } = items[at] ?? items[0];
  $('strip').scrollTop = offsetTop + offsetHeight + 3 - $('strip').clientHeight;
  $('undo').disabled = end === 0;
  $('start').disabled = at === 0;
  $('redo').disabled = end === state.requests.length;
  const gone = state.dropped ? state.dropped.requests.length - state.dropped.at : 0;
  $('dropped').hidden = gone === 0;
  $('gone').textContent = gone === 1 ? '1 later request was dropped.' : `${gone} later requests were dropped.`;
}

/** Brings back the requests that another one took the place of, without that one. */
function restore() {
  if (!state.dropped) return;
  Object.assign(state, state.dropped, { dropped: null });
  refresh();
}

/** Looks at the moment after so many requests; that changes nothing. */
function goTo(at) {
  state.at = at;
  if (at > state.end) state.end = at;
  refresh();
}

/** Lets so many requests count. */
function count(end) {
  Object.assign(state, { end, at: end });
  refresh();
}

/** Why the last request was answered as it was. */
function drawWhy() {
  const { told, at } = state;
  const step = told.steps[at - 1];
  if (!step) {
    const ahead = told.steps.length;
    const words = ahead
      ? `This is the start; ${ahead} ${ahead === 1 ? 'request lies' : 'requests lie'} ahead.`
      : 'Nothing was asked yet.';
    $('why').replaceChildren(make('p', 'quiet', words));
    return;
  }
  const name = kind(step.answer);
  const head = make('p', 'asked', `${step.event} ${step.from} → ${step.to} `);
  head.append(make('span', `answer ${name}`, `${SIGNS[name]} ${ANSWERS[name]}`));
  const lines = told.why ?? (step.because ? [step.because] : []);
  $('why').replaceChildren(head, ...lines.map(reason));
}

/** Who may do the chosen event; a cell chooses its two members. */
function drawWho() {
  const { told } = state;
  fill($('event'), told.events.map((name) => [name, name]), state.who);
  $('table').innerHTML = told.table ?? '';
  const [from, to] = [state.from, state.to].map((name) => told.members.indexOf(name));
  const head = (scope, member) => $('table').querySelector(`th[scope=${scope}][data-member="${member}"]`);
  const column = head('col', to)?.cellIndex;
  if (column) head('row', from)?.parentNode.cells[column].classList.add('chosen');
}

function chooseCell({ target }) {
  const cell = target.closest('tbody td');
  if (!cell) return;
  const { members } = state.told;
  const heads = $('table').querySelector('thead').rows[0].cells;
  const [from, to] = [cell.parentNode.cells[0], heads[cell.cellIndex]].map((head) => members[head.dataset.member]);
  Object.assign(state, { from, to });
  refresh();
}
