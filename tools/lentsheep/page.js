'use strict';
const data = JSON.parse(document.getElementById('data').textContent);
const told = document.getElementById('told');
const all = (what, where = document) => [...where.querySelectorAll(what)];
const items = all('[data-a]');

// The lines of the report that an item stands for.
const placesOf = (item) => item.dataset.a.split(' ').filter(Boolean).map(Number);
const linesOf = (item) => placesOf(item).map((at) => data.answers[at]);
// What is told of one answer: its line, its calls, and the partings by which systemd may open it.
const toldOf = (at) => {
  const [line, ...calls] = data.answers[at];
  const doubts = data.doubts[at] ? ['  only without ' + data.doubts[at].join(', ')] : [];
  return [line, ...calls.map((call) => '  ' + call), ...doubts].join('\n');
};
const tell = (item) => {
  told.textContent = placesOf(item).map(toldOf).join('\n');
};

// One item of each group is reached by the tab key, and the others by the arrows.
const groups = all('.tree, .items');
const itemsOf = new Map(groups.map((group) => [group, all('[data-a]', group)]));
const isShown = (item) => item.offsetParent !== null;
const shownIn = (group) => all('[data-a]', group).filter(isShown);
const go = (item) => {
  if (!item) return;
  all('[tabindex="0"]', item.closest('.tree, .items')).forEach((it) => { it.tabIndex = -1; });
  item.tabIndex = 0;
  item.focus();
};
const reachable = () => groups.forEach((group) => {
  const before = all('[tabindex="0"]', group);
  const one = before.find(isShown) ?? itemsOf.get(group).find(isShown);
  before.forEach((item) => { item.tabIndex = -1; });
  if (one) one.tabIndex = 0;
});
const toggle = (item, state) => {
  if (item.hasAttribute('aria-expanded')) {
    item.setAttribute('aria-expanded', state ?? item.getAttribute('aria-expanded') !== 'true');
  }
};

const besides = (shown, at, step) => {
  // the next item of the line above or below that stands nearest
  const here = shown[at].getBoundingClientRect();
  const lines = shown.filter((it) => (it.getBoundingClientRect().top - here.top) * step > 2);
  const line = lines.map((it) => it.getBoundingClientRect().top).sort((a, b) => (a - b) * step)[0];
  return lines.filter((it) => it.getBoundingClientRect().top === line)
    .sort((a, b) => Math.abs(a.getBoundingClientRect().left - here.left) - Math.abs(b.getBoundingClientRect().left - here.left))[0];
};
const moves = {
  tree: (item, shown, at, key) => {
    const expanded = item.getAttribute('aria-expanded');
    if (key === 'ArrowUp') return shown[at - 1];
    if (key === 'ArrowDown') return shown[at + 1];
    if (key === 'ArrowRight' && expanded === 'true') return shown[at + 1];
    if (key === 'ArrowLeft' && expanded !== 'true') return item.parentElement.closest('[role="treeitem"]');
    toggle(item);
    return item;
  },
  items: (item, shown, at, key) => {
    if (key === 'ArrowRight') return shown[at + 1];
    if (key === 'ArrowLeft') return shown[at - 1];
    return besides(shown, at, key === 'ArrowDown' ? 1 : -1);
  },
};
document.addEventListener('keydown', (event) => {
  const item = event.target.closest('[data-a]');
  const typing = event.target.tagName === 'INPUT';
  if (event.key === '/' && !typing) {
    event.preventDefault();
    search.focus();
  }
  if (event.key === 'Escape' && event.target === search) {
    search.value = '';
    find();
  }
  if (!item || event.ctrlKey || event.metaKey || event.altKey) return;
  const group = item.closest('.tree, .items');
  const isTree = group.classList.contains('tree');
  const shown = shownIn(group);
  if (event.key === 'Home') go(shown[0]);
  else if (event.key === 'End') go(shown[shown.length - 1]);
  else if (event.key.startsWith('Arrow') || (isTree && (event.key === 'Enter' || event.key === ' '))) {
    go(moves[isTree ? 'tree' : 'items'](item, shown, shown.indexOf(item), event.key));
  } else return;
  event.preventDefault();
});
document.addEventListener('focusin', (event) => {
  const item = event.target.closest('[data-a]');
  if (item) tell(item);
});
document.addEventListener('click', (event) => {
  const item = event.target.closest('[data-a]');
  if (!item) return;
  go(item);
  if (event.target.closest('.row')) toggle(item);
});

// The search field shows what has all of the words in a line of the report, in any order and case.
const search = document.getElementById('search');
const found = document.getElementById('found');
const states = new Map(all('[aria-expanded]').map((item) => [item, item.getAttribute('aria-expanded')]));
const small = data.answers.map(([line]) => line.toLowerCase());
const parents = new Map(items.map((item) => [item, item.parentElement.closest('[data-a]')]));
// With more hits than can be looked through, folders stay folded.
const MOST_UNFOLDED = 300;
const set = (item, name, value) => { if (item[name] !== value) item[name] = value; };
const find = () => {
  const words = search.value.toLowerCase().split(/\s+/).filter(Boolean);
  const text = words.join(' ');
  const hit = small.map((line) => words.every((word) => line.includes(word)));
  const shown = new Set();
  const unfolded = new Set();
  let count = 0;
  if (text) {
    items.forEach((item) => {
      const hits = placesOf(item).filter((at) => hit[at]).length;
      count += hits;
      if (hits) shown.add(item);
    });
    [...shown].forEach((item) => {
      for (let above = parents.get(item); above && !unfolded.has(above); above = parents.get(above)) unfolded.add(above);
    });
  }
  items.forEach((item) => set(item, 'hidden', text !== '' && !shown.has(item) && !unfolded.has(item)));
  const unfolds = count <= MOST_UNFOLDED;
  states.forEach((state, item) => set(item, 'ariaExpanded', unfolds && unfolded.has(item) ? 'true' : state));
  // a section in which nothing was found makes room
  all('main > section').forEach((part) => { part.hidden = text !== '' && !part.querySelector('[data-a]:not([hidden])'); });
  found.textContent = !text ? '' : count ? `${count} of ${data.answers.length} answers` : `no answer has ${words.length > 1 ? 'all of these words' : 'this word'}`;
  reachable();
};
search.addEventListener('input', find);

document.getElementById('theme').addEventListener('click', () => {
  const root = document.documentElement;
  const dark = root.dataset.theme ? root.dataset.theme === 'dark' : matchMedia('(prefers-color-scheme: dark)').matches;
  root.dataset.theme = dark ? 'light' : 'dark';
});

// A filter's program, run on the data of a call (seccomp(2)): the tests that were made, and what it returns.
const run = (program, words) => {
  const tests = [];
  let word = 0;
  for (let at = 0; at < program.length; at += 1) {
    const [code, yes, no, value] = program[at];
    if (code === 0x20) word = words[value / 4];
    else if (code === 0x54) word = (word & value) >>> 0;
    else if (code === 0x05) at += value;
    else if (code === 0x06) return { tests, value };
    else {
      const holds = { 0x15: word === value, 0x25: word > value, 0x35: word >= value, 0x45: (word & value) !== 0 }[code];
      tests.push([at, holds]);
      at += holds ? yes : no;
    }
  }
  return { tests, value: 0 };
};
const actionOf = (value) => {
  const name = data.actions[value >>> 16] ?? '?';
  return name === 'errno' ? `errno ${value & 0xffff} ${data.errnos[value & 0xffff] ?? ''}`.trim() : name;
};
// Marks the way of a call through a picture, from its first test on.
const mark = (picture, tests) => {
  all('.on', picture).forEach((shape) => shape.classList.remove('on'));
  let shape = document.getElementById(picture.dataset.root);
  for (const [at, holds] of tests) {
    if (Number(shape.dataset.at) !== at) return;
    shape.classList.add('on');
    const next = holds ? shape.dataset.yes : shape.dataset.no;
    document.getElementById(next + '-in').classList.add('on');
    shape = document.getElementById(next);
  }
  shape.classList.add('on');
  const box = shape.querySelector('rect');
  picture.parentElement.scrollTo(box.x.baseVal.value - 500, box.y.baseVal.value - 200);
};
// The words of the data of a call that was typed: its number or name, and its arguments. None where it cannot be read.
const read = (text) => {
  const [first, ...more] = text.trim().split(/\s+/);
  const number = /^(0x[0-9a-f]+|[0-9]+)$/i;
  const call = Object.hasOwn(data.names, first) ? data.names[first] : first;
  if (more.length > 6 || ![String(call), ...more].every((word) => number.test(word)) || Number(call) > 0xffffffff) return null;
  const words = [Number(call), data.arch, 0, 0];
  for (let at = 0; at < 6; at += 1) {
    const argument = BigInt.asUintN(64, BigInt(more[at] ?? 0));
    words.push(Number(argument & 0xffffffffn), Number(argument >> 32n));
  }
  return words;
};
const number = document.getElementById('number');
const decide = () => {
  const words = number.value.trim() ? read(number.value) : null;
  const results = data.programs.map(([name, program], at) => {
    const picture = document.querySelector(`svg[data-root="f${at}-1"]`);
    const end = words ? run(program, words) : { tests: [], value: null };
    if (picture) {
      if (words) mark(picture, end.tests);
      else all('.on', picture).forEach((shape) => shape.classList.remove('on'));
    }
    return [name, end.value];
  });
  const decided = document.getElementById('decided');
  if (!words) {
    decided.textContent = number.value.trim() ? 'This is no number of a call with at most six arguments.' : '';
    return;
  }
  // the strictest action decides, and of equal ones that of the filter that was installed last
  const strictness = (value) => (value & 0xffff0000) | 0;
  const least = results.reduce((best, it) => (strictness(it[1]) <= strictness(best[1]) ? it : best));
  const stopping = results.filter(([, value]) => value >>> 16 !== 0x7fff).map(([name, value]) => `${name}: ${actionOf(value)}`);
  decided.textContent = `${actionOf(least[1])}` + (stopping.length ? ` (${stopping.join('; ')})` : ', by every filter');
};
if (number) number.addEventListener('input', decide);
reachable();
