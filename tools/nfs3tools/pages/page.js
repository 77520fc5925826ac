'use strict';
document.documentElement.className = 'js';
const every = selector => [...document.querySelectorAll(selector)],
  visible = some => some.filter(one => !one.hidden),
  plain = text => text.replaceAll('\u00a0', ' ').trim().toLowerCase(),
  counted = (number, word) => `${number.toLocaleString('en')} ${word}${number === 1 ? '' : 's'}`,
  findings = every('article'), rows = every('.row'), texts = new Map(),
  [find] = every('#find'), [found] = every('#found'), [heading] = every('#findings h2'),
  whole = heading?.textContent, words = find?.parentElement.dataset;
let here = null;

function has(element, text) {
  if (!texts.has(element)) texts.set(element, plain(element.textContent));
  return texts.get(element).includes(text);
}

// Of a part that has what is searched through, what is found in it decides, and else its own text.
function isFound(part, text) {
  const inner = [...part.querySelectorAll('article, .row')];
  return inner.length ? inner.some(one => !one.hidden) : has(part, text);
}

function search() {
  const text = plain(find.value), isAll = text === '';
  for (const one of [...findings, ...rows]) one.hidden = !isAll && !has(one, text);
  for (const one of every('.gap, #more')) one.hidden = !isAll;
  for (const one of every('.connection, section, .valid')) {
    one.hidden = !isAll && !isFound(one, text);
    if (one.matches('.valid')) one.open ||= !isAll && !one.hidden;
  }
  if (heading && isAll) heading.textContent = whole;
  else if (heading) {
    const seen = visible(findings),
      messages = seen.reduce((sum, one) => sum + Number(one.dataset.messages), 0);
    heading.textContent = `${counted(seen.length, words.found)} in ${counted(messages, 'message')}`;
  }
  tell();
}

function tell() {
  const seen = visible(findings), at = seen.indexOf(here),
    several = findings.length ? [counted(seen.length, words.found)] : [],
    all = [...several, counted(visible(rows).length, words.rows)].join(', ');
  found.textContent = `${at < 0 ? '' : `${at + 1} of `}${all}`;
}

function stay(element) {
  here?.classList.remove('here');
  here = element;
  here.classList.add('here');
  tell();
}

function show(element) {
  for (const one of every('details')) one.open ||= one !== element && one.contains(element);
  element.scrollIntoView({block: 'start'});
}

function go(step) {
  const seen = visible(findings), at = seen.indexOf(here), last = seen.length - 1;
  if (last < 0) return;
  stay(seen[at < 0 ? (step > 0 ? 0 : last) : Math.min(Math.max(at + step, 0), last)]);
  show(here);
}

function copy(button) {
  getSelection().selectAllChildren(button.previousElementSibling);
  button.classList.toggle('copied', document.execCommand('copy'));
}

// The call of a dot: what is said of it, and what to type.
function choose(dot, panel) {
  const [words, lines] = panel.children;
  words.textContent = dot.querySelector('title').textContent;
  lines.hidden = false;
  for (const line of lines.querySelectorAll('.command')) {
    line.dataset.form ??= line.textContent;
    line.textContent = line.dataset.form.replace('PLACE', dot.dataset.place);
  }
}

// A number without its separators, or a text; what there is none of comes last.
function worth(row, at) {
  const text = row.cells[at].textContent, number = Number(text.replaceAll(',', ''));
  return text === '-' ? -Infinity : Number.isNaN(number) ? text : number;
}

// The largest first, or after another click the smallest. The row of sums stays the last.
function sort(head) {
  const at = head.cellIndex, body = head.closest('table').tBodies[0],
    isUp = head.getAttribute('aria-sort') === 'descending',
    isSum = row => row.cells[0].textContent === 'in all';
  const compared = (one, other) => typeof one === typeof other
    ? (one < other) - (one > other) : (typeof one === 'number') - (typeof other === 'number');
  const ordered = [...body.rows].sort((one, other) => isSum(one) - isSum(other)
    || compared(worth(one, at), worth(other, at)) * (isUp ? -1 : 1));
  for (const one of head.parentElement.cells) one.removeAttribute('aria-sort');
  head.setAttribute('aria-sort', isUp ? 'ascending' : 'descending');
  body.append(...ordered);
}

function follow() {
  const target = document.getElementById(location.hash.slice(1));
  if (!target) return;
  if (target.hidden) {
    find.value = '';
    search();
  }
  show(target);
  if (target.matches('article')) stay(target);
}

for (const dot of every('.line a')) {
  dot.addEventListener('click', event => {
    event.preventDefault();
    choose(dot, document.querySelector(dot.getAttribute('href')));
  });
}
for (const head of every('.wide th')) {
  head.tabIndex = 0;
  head.addEventListener('click', () => sort(head));
  head.addEventListener('keydown', event => event.key === 'Enter' && sort(head));
}
if (find) {
  for (const [name, step] of [['#next', 1], ['#previous', -1]]) {
    const [button] = every(name);
    button.hidden = !findings.length;
    button.addEventListener('click', () => go(step));
  }
  find.addEventListener('input', search);
  document.addEventListener('click', event => event.target.matches('.copy') && copy(event.target));
  document.addEventListener('keydown', event => {
    if (event.target === find || event.ctrlKey || event.altKey || event.metaKey) return;
    if (event.key === 'n') go(1);
    if (event.key === 'p') go(-1);
  });
  addEventListener('hashchange', follow);
  search();
  follow();
}
