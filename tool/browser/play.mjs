// play.mjs BROWSER ADDRESS FOLDER: uses the page as a person would, with the mouse and the keyboard, and reads what
// it answers. The page is that of the preset example, without requests. Leaves pictures in FOLDER.
import assert from 'node:assert/strict';
import { open } from './devtools.mjs';

const [browser, address, folder] = process.argv.slice(2);
const page = await open(browser, address);
const all = (selector) => `[...document.querySelectorAll('${selector}')]`;
const texts = (selector) => page.value(`${all(selector)}.map((one) => one.innerText.trim())`);
const text = async (selector) => (await texts(selector)).join('\n');
const within = (selector, words) => page.until(
  `document.querySelector('${selector}').innerText.includes(${JSON.stringify(words)})`,
  `${words} in ${selector}`,
);
const member = (name) => page.click(
  `${all('.node')}.find((node) => node.getAttribute('aria-label') === '${name}').querySelector('circle')`,
);
const event = (name) => page.click(`${all('#looks button')}.find((button) => button.innerText === '${name}')`);

/** Chooses two members, makes the request, and waits for its answer. */
async function request(name, from, to, answer) {
  await member(from);
  await page.until(`state.from === '${from}' && state.to === null && !document.querySelector('#looks li')`);
  await member(to);
  await page.until(`state.to === '${to}' && document.querySelectorAll('#looks button').length === 4`);
  const before = await page.value('state.at');
  await event(name);
  await page.until(`document.querySelectorAll('#strip li').length === ${before + 2} && state.at === ${before + 1}`);
  await within('#why', `${name} ${from} → ${to}`);
  await within('#why', answer);
}

try {
  await page.until('document.querySelectorAll(".node").length === 3');
  assert.deepEqual(await texts('#aloud dt'), ['share', 'withdraw', 'load']);

  // Type an event with a mistake, see where it is and what would be right, and put it right.
  await page.click('document.getElementById("source")');
  await page.value('document.getElementById("source").setSelectionRange(9999, 9999)');
  await page.type('\nevent preview\n  when target shar me\n');
  await within('#mistakes', 'did you mean `share`?');
  assert.equal(await text('#size'), '1 mistake');
  assert.equal(await text('#shown .bad'), 'shar');
  assert.ok(await page.value('document.body.classList.contains("stale")'));
  await page.picture(`${folder}/play-mistake.png`);
  await page.click('document.querySelector("#mistakes button")');
  await page.type('share');
  await page.until('!document.body.classList.contains("stale")');
  assert.deepEqual(await texts('#aloud dt'), ['share', 'withdraw', 'load', 'preview']);
  await within('#aloud', 'You may preview');

  // A warning stands where mistakes stand, and all goes on.
  const typed = JSON.stringify(await page.value('document.getElementById("source").value'));
  await page.value('document.getElementById("source").setSelectionRange(9999, 9999)');
  await page.type('event knock\n  when once me denied load target\n');
  await within('#mistakes', 'denied requests of `load` are not kept');
  assert.ok((await text('#mistakes .warning b')).includes(', warning'));
  assert.ok(!(await page.value('document.body.classList.contains("stale")')));
  await page.picture(`${folder}/play-warning.png`);
  await page.value(`(() => { const source = document.getElementById('source'); source.value = ${typed};
    source.dispatchEvent(new Event('input')); })()`);
  await page.until('!document.querySelector("#mistakes li")');

  // Three requests and their answers.
  await request('load', 'player', 'preset', 'denied');
  await request('share', 'designer', 'player', 'granted');
  // The table is about the event last asked, until another is chosen.
  await page.until('document.getElementById("event").value === "share"');
  await request('load', 'player', 'preset', 'granted');
  await within('#moment', 'Moment 2');
  await page.value('(() => { const who = document.getElementById("event"); who.value = "load"; who.onchange(); })()');
  const line = ['at the start', '✗ load player → preset', '✓ share designer → player 1', '✓ load player → preset 2'];
  assert.deepEqual(await texts('#strip li'), line);
  await within('#table', '1 pair may load at moment 2');
  await page.picture(`${folder}/play-light.png`);

  // In a low window every event is seen.
  await page.size(1400, 757);
  const seen = await page.value(`(() => {
    const box = document.getElementById('looks').getBoundingClientRect();
    return ${all('#looks li')}.filter((one) => one.getBoundingClientRect().bottom <= box.bottom + 1).length;
  })()`);
  assert.equal(seen, 4, 'events that are seen at a height of 757');
  // So is the last request, with the line around it.
  const whole = await page.value(`(() => {
    drawStory();
    const [strip, last] = ['#strip', '#strip [aria-current]'].map((one) => document.querySelector(one));
    const [within, box] = [strip.getBoundingClientRect(), last.getBoundingClientRect()];
    return box.top - 2 >= within.top && box.bottom + 2 <= within.bottom;
  })()`);
  assert.ok(whole, 'the last request is cut off');
  const scale = await page.value('document.querySelector("#picture .graph").getScreenCTM().a');
  assert.ok(scale >= 0.7, `names in the graph are drawn at ${scale.toFixed(2)} of their size`);
  await page.picture(`${folder}/play-low.png`);
  await page.size(1400, 900);

  // Back to the moment of the share, and on from there another way.
  await page.click('document.querySelectorAll("#strip button")[2]');
  await within('#moment', 'Moment 1');
  assert.deepEqual(await texts('#strip .later'), ['✓ load player → preset 2']);
  assert.deepEqual(await texts('#strip .back'), []);
  assert.ok(await page.value('document.getElementById("dropped").hidden'));
  await request('withdraw', 'designer', 'player', 'granted');
  // What was dropped is said, and can be brought back.
  await within('#dropped', '1 later request was dropped.');
  await page.picture(`${folder}/play-dropped.png`);
  await page.click('document.getElementById("restore")');
  await page.until('document.getElementById("dropped").hidden');
  await page.until(`document.querySelectorAll('#strip li').length === ${line.length}`);
  assert.deepEqual(await texts('#strip li'), line);
  assert.deepEqual(await texts('#strip .later'), ['✓ load player → preset 2']);
  await request('withdraw', 'designer', 'player', 'granted');
  assert.deepEqual(await texts('#strip .later'), []);
  await within('#table', 'Nobody may load at moment 2');

  // A cell chooses its two members.
  await page.click('document.querySelector("#table tbody").rows[1].cells[3]');
  await page.until('state.from === "player" && state.to === "preset"');
  await page.until('document.querySelectorAll("#looks .deny").length === 2');

  // Save, and nothing is left to be saved.
  await page.click('document.getElementById("save")');
  await within('#said', 'terms.say is saved, and requests.say with 3 requests.');
  assert.equal(await page.value('document.getElementById("save").disabled'), true);

  // Looking back is no change; taking a request back is one.
  await page.click('document.getElementById("start")');
  await within('#why', 'This is the start; 3 requests lie ahead.');
  assert.equal(await page.value('document.getElementById("save").disabled'), true);
  assert.equal((await texts('#strip .later')).length, 3);
  await page.click('document.querySelectorAll("#strip button")[3]');
  await within('#moment', 'Moment 2');
  await page.click('document.getElementById("undo")');
  await page.until('document.querySelectorAll("#strip .back").length === 1');
  assert.equal(await page.value('document.getElementById("save").disabled'), false);
  await page.click('document.getElementById("redo")');
  await page.until('document.getElementById("save").disabled');

  // A long line of the source is wrapped, and the line after it keeps its number beside it.
  await page.value(`(() => { const source = document.getElementById('source');
    source.value = '# ' + 'wrapped '.repeat(60) + '\\n' + source.value;
    source.dispatchEvent(new Event('input')); })()`);
  const rows = (await page.value('document.getElementById("numbers").textContent')).split('\n').indexOf('2');
  assert.ok(rows > 3, `line 2 is numbered in row ${rows}`);
  const wraps = '(({ scrollWidth, clientWidth }) => scrollWidth <= clientWidth)(document.getElementById("source"))';
  assert.ok(await page.value(wraps), 'a line is cut off');

  // Where nothing could be drawn yet, every card says why.
  await page.value(`(() => { const source = document.getElementById('source');
    state.told = null;
    source.value = 'members a\\nevnt go';
    source.dispatchEvent(new Event('input')); })()`);
  for (const card of ['#aloud', '#picture', '#hint', '#strip', '#why', '#table']) {
    await within(card, 'Fix the mistake on line 2 to see this.');
  }

  for (const [name, options] of [['dark', { dark: true }], ['narrow', { width: 420, height: 1600 }]]) {
    const other = await open(browser, address, options);
    await other.until('document.querySelectorAll(".node").length === 3');
    const fits = await other.value('document.documentElement.scrollWidth <= innerWidth');
    assert.ok(fits, `${name}: wider than the window`);
    await other.picture(`${folder}/play-${name}.png`);
    await other.close();
  }
} catch (error) {
  await page.picture(`${folder}/play-failed.png`);
  throw error;
} finally {
  await page.close();
}
console.log('play: a change was typed, requests were made and answered, taken back and saved');
