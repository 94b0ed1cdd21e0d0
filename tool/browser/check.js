// Looks at a page as the browser laid it out and leaves what is wrong, or `ok`,
// in an attribute of the root. Put into a copy of the page by browser.sh; no
// page has it.
const wrong = [];
const say = (right, what) => right || wrong.push(what);
const all = (selector) => [...document.querySelectorAll(selector)];

say(document.documentElement.scrollWidth <= innerWidth, `wider than the window: ${document.documentElement.scrollWidth}`);

for (const link of all('a[href^="#"], use[href^="#"]')) {
  const id = link.getAttribute('href').slice(1);
  say(document.getElementById(id), `nothing is called ${id}`);
}

const ids = all('[id]').map((element) => element.id);
say(new Set(ids).size === ids.length, 'an id is there twice');

for (const picture of all('svg.graph')) {
  const box = picture.getBBox();
  const view = picture.viewBox.baseVal;
  const inside = box.x >= view.x && box.y >= view.y
    && box.x + box.width <= view.x + view.width && box.y + box.height <= view.y + view.height;
  const shown = picture.getBoundingClientRect();
  say(inside, `${picture.querySelector('title').textContent}: cut off`);
  say(shown.width >= 150 && shown.height >= 100, `${picture.querySelector('title').textContent}: too small`);
  say(picture.querySelector('title') && picture.querySelector('desc'), 'a picture without words');
}

// The name of an event stands at its line, and not on another name.
const overlap = (one, other) => one.x + 1 < other.x + other.width && other.x + 1 < one.x + one.width
  && one.y + one.height * 0.25 < other.y + other.height * 0.75
  && other.y + other.height * 0.25 < one.y + one.height * 0.75;
for (const name of all('.event-name')) {
  const picture = name.closest('svg');
  const { x, y, width, height } = name.getBBox();
  const far = (low, high, at) => Math.max(low - at, 0, at - high);
  const off = (point) => Math.hypot(far(x, x + width, point.x), far(y, y + height, point.y));
  const lines = [...picture.querySelectorAll('.event-edge, .asked-edge, .past-edge')];
  const near = lines.some((line) => {
    const length = line.getTotalLength();
    return Array.from({ length: 61 }, (_, part) => line.getPointAtLength((length * part) / 60))
      .some((point) => off(point) < 24);
  });
  say(near, `${picture.querySelector('title').textContent}: a name far from its line`);
  const names = [...picture.querySelectorAll('text'), ...all('#members text')].filter((other) => other !== name);
  const hit = names.some((other) => overlap(name.getBBox(), other.getBBox()));
  say(!hit, `${picture.querySelector('title').textContent}: ${name.textContent} lies on a name`);
}

// Nor does it lie on a member's circle.
for (const name of all('.event-name')) {
  const picture = name.closest('svg');
  const { x, y, width, height } = name.getBBox();
  const on = (circle) => {
    const far = (low, high, middle) => Math.max(low - middle, 0, middle - high);
    const [cx, cy, r] = ['cx', 'cy', 'r'].map((part) => circle[part].baseVal.value);
    return Math.hypot(far(x + 1, x + width - 1, cx), far(y + height / 4, y + height * 0.75, cy)) < r;
  };
  const circles = [...picture.querySelectorAll('circle'), ...all('#members circle')];
  say(!circles.some(on), `${picture.querySelector('title').textContent}: its name lies on a circle`);
}

// Where a filter leaves nothing, that is said; and no moment is left without a request.
const [byMember, byAnswer] = ['by-member', 'by-answer'].map((id) => document.getElementById(id));
if (byMember) {
  const seen = (element) => element.checkVisibility();
  for (const member of byMember.options) {
    for (const answer of byAnswer.options) {
      member.selected = answer.selected = true;
      const [requests, none] = [all('.asked > li').filter(seen).length, seen(document.querySelector('.none'))];
      say(none === (requests === 0), `${member.text}, ${answer.text}: ${requests} requests, said ${none}`);
      const chosen = member.value !== 'all' || answer.value !== 'all';
      const bare = all('.moment').filter((one) => seen(one) && ![...one.querySelectorAll('.asked > li')].some(seen));
      say(!chosen || !bare.length, `${member.text}, ${answer.text}: ${bare.length} moments without a request`);
      const lost = all('.strip .at').filter((link) => seen(link) && !seen(document.querySelector(link.hash)));
      say(!lost.length, `${member.text}, ${answer.text}: ${lost.length} links to moments that are hidden`);
    }
  }
  byMember.value = byAnswer.value = 'all';
}

const style = getComputedStyle(document.documentElement);
const light = (name) => {
  const digits = style.getPropertyValue(name).trim().replace(/^#(.)(.)(.)$/, '#$1$1$2$2$3$3');
  const part = (at) => {
    const value = parseInt(digits.slice(at, at + 2), 16) / 255;
    return value <= 0.03928 ? value / 12.92 : ((value + 0.055) / 1.055) ** 2.4;
  };
  return 0.2126 * part(1) + 0.7152 * part(3) + 0.0722 * part(5);
};
const contrast = (one, other, least) => {
  const [low, high] = [light(one), light(other)].sort((a, b) => a - b);
  const ratio = (high + 0.05) / (low + 0.05);
  say(ratio >= least, `${one} on ${other}: contrast ${ratio.toFixed(2)}`);
};
for (const paper of ['--page', '--card']) {
  contrast('--ink', paper, 7);
  contrast('--soft', paper, 4.5);
}
for (const answer of ['granted', 'denied', 'refused']) contrast(`--${answer}`, `--${answer}-back`, 4.5);
// A cell of a pair that may, and its tick.
contrast('--granted', '--refused-back', 3);
contrast('--granted', '--card', 4.5);
for (let relation = 0; relation < 8; relation += 1) contrast(`--c${relation}`, '--card', 3);

document.documentElement.setAttribute('data-checked', wrong.length ? [...new Set(wrong)].slice(0, 8).join('; ') : 'ok');
