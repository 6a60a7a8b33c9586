// The page's own script. What comes from the store is shown as text, never as markup.
'use strict';

const element = id => document.getElementById(id);
// A count with its noun: 1 row, 2 rows.
const counted = (list, noun) => `${list.length} ${noun}${list.length === 1 ? '' : 's'}`;
const openEnd = '9999-12-31';
const firstDay = '0001-01-01';
let store = {tables: []};
let range = {days: [], moments: []};

function made(name, given, ...children) {
  const found = document.createElement(name);
  for (const [key, value] of Object.entries(given || {})) found.setAttribute(key, value);
  found.append(...children);
  return found;
}

async function asked(path, question) {
  const response = await fetch(path + location.search, {  // with the token
    method: 'POST',
    headers: {'Content-Type': 'application/json'},
    body: JSON.stringify(question),
  });
  if (!response.ok) throw new Error(await response.text());
  return response.json();
}

// The mark of a cell of a whole number, and of the head above one.
const kindOf = cell => /^-?[0-9]+$/.test(cell || '') ? {class: 'number'} : {};

// A table with a caption. The cells of `more` come last in each row: elements of their own.
function tableOf(caption, columns, rows, more) {
  const heads = [...columns, ...(more ? more.heads : [])];
  const body = made('tbody');
  rows.forEach((row, at) => {
    const line = made('tr');
    for (const cell of row) {
      line.append(made('td', kindOf(cell), cell));
    }
    if (more) line.append(...more.cells(at));
    body.append(line);
  });
  return made('div', {class: 'table', tabindex: '0', role: 'region', 'aria-label': caption},
    made('table', {}, made('caption', {}, caption),
      made('thead', {}, made('tr', {}, ...heads.map((head, at) =>
        made('th', {scope: 'col', ...kindOf((rows[0] || [])[at])}, head)))),
      body));
}

const dayNumber = text => Date.parse(text + 'T00:00:00Z') / 86400000;

// The bar of a period on the line of all days of an answer. What is open goes to the edge.
function barOf(from, to, low, high) {
  const space = 'http://www.w3.org/2000/svg';
  const width = 160;
  const place = day => (dayNumber(day) - low) / Math.max(1, high - low) * (width - 10) + 5;
  const begin = from === firstDay ? 0 : place(from);
  const end = to === openEnd ? width : place(to);
  const picture = document.createElementNS(space, 'svg');
  picture.setAttribute('viewBox', `0 0 ${width} 16`);
  picture.setAttribute('role', 'img');
  picture.setAttribute('aria-label', `from ${from} to ${to}`);
  const bar = document.createElementNS(space, 'rect');
  bar.setAttribute('x', begin);
  bar.setAttribute('y', 4);
  bar.setAttribute('width', Math.max(1, end - begin));
  bar.setAttribute('height', 8);
  picture.append(bar);
  return picture;
}

function csvOf(columns, rows) {
  const field = text => /[",\n\r]/.test(text) ? '"' + text.replaceAll('"', '""') + '"' : text;
  return [columns, ...rows].map(row => row.map(field).join(',') + '\r\n').join('');
}

function save(columns, rows) {
  const address = URL.createObjectURL(new Blob([csvOf(columns, rows)], {type: 'text/csv'}));
  const link = made('a', {href: address, download: 'answer.csv'});
  link.click();
  URL.revokeObjectURL(address);
}

function saveButton(columns, rows) {
  const button = made('button', {type: 'button'}, 'Save as CSV');
  button.addEventListener('click', () => save(columns, rows));
  return button;
}

function auditOf(audit) {
  if (!audit.length) return '';
  const [verdict, detail] = audit;
  if (verdict === 'agrees') {
    return made('p', {class: 'agrees'}, `The audit agrees, over ${detail} days of change.`);
  }
  const texts = {
    differs: `The audit finds the answer wrong on ${detail}.`,
    badwitness: `The audit finds row ${detail} not shown by its witness.`,
    refused: 'There was no memory for the audit.',
  };
  return made('p', {class: 'differs'}, texts[verdict] || audit.join(' '));
}

function answerOf(result) {
  const width = result.columns.length;
  const periods = result.rows.map(row => row.slice(width - 2));
  const days = periods.flat().filter(day => day !== firstDay && day !== openEnd).map(dayNumber);
  const low = Math.min(...days, Infinity) === Infinity ? 0 : Math.min(...days);
  const high = days.length ? Math.max(...days) : 1;
  const shown = tableOf(counted(result.rows, 'row'), result.columns, result.rows, {
    heads: ['when', 'witness'],
    cells: at => [made('td', {class: 'when'}, barOf(...periods[at], low, high)),
      made('td', {class: 'witness'}, result.witnesses[at])],
  });
  return [shown, auditOf(result.audit), saveButton(result.columns, result.rows)];
}

// The text up to the place that a refusal marks, and the word there.
function marked(text, at) {
  const letters = [...text];
  const rest = letters.slice(at).join('');
  const word = (/^\w+|^\S/.exec(rest) || [''])[0];
  return made('pre', {}, letters.slice(0, at).join(''), made('mark', {}, word),
    rest.slice(word.length));
}

function refusalOf(result, text) {
  const parts = [made('p', {}, made('strong', {}, result.message))];
  if (text && result.at !== null) parts.push(marked(text, result.at));
  for (const words of [result.detail, result.hint]) {
    if (words) parts.push(...words.split('\n').map(line => made('p', {}, line)));
  }
  return made('div', {class: 'refused', role: 'alert'}, ...parts);
}

function resultOf(result, text) {
  const shown = made('div', {class: 'result'});
  if (result.kind === 'answer') shown.append(...answerOf(result));
  else if (result.kind === 'versions') {
    shown.append(tableOf(counted(result.rows, 'version'), result.columns, result.rows),
      saveButton(result.columns, result.rows));
  } else if (result.kind === 'refused') shown.append(refusalOf(result, text));
  else shown.append(made('p', {}, `done: ${result.what}, ${result.count}`));
  return shown;
}

function failed(place, error) {
  place.replaceChildren(made('p', {class: 'differs', role: 'alert'},
    `There is no answer: ${error.message}`));
}

async function ask(event) {
  event.preventDefault();
  const text = element('text').value;
  const place = element('results');
  place.setAttribute('aria-busy', 'true');
  try {
    const {results} = await asked('ask', {text});
    place.replaceChildren(...results.map(result => resultOf(result, text)));
    if (results.some(result => result.kind === 'done')) await showTables();
  } catch (error) {
    failed(place, error);
  }
  place.removeAttribute('aria-busy');
}

function examplesOf(tables) {
  const found = [];
  for (const table of tables) {
    const values = table.columns.slice(0, 3).map(column => column.name);
    found.push(`VALIDTIME SELECT DISTINCT ${values.join(', ')} FROM ${table.name};`);
    found.push(`SELECT * FROM ${table.name};`);
    found.push(`SELECT * FROM ${table.name} FOR SYSTEM_TIME AS OF TIMESTAMP '${store.clock}';`);
  }
  return found;
}

const option = text => made('option', {value: text}, text);

async function showTables() {
  const chosen = element('table').value;
  store = await asked('tables', {});
  element('clock').textContent =
    `clock ${store.clock}` + (store.write ? '' : ', this page only reads');
  element('examples').replaceChildren(made('option', {value: ''}, 'an example'),
    ...examplesOf(store.tables).map(option));
  element('table').replaceChildren(...store.tables.map(table => option(table.name)));
  if (store.tables.some(table => table.name === chosen)) element('table').value = chosen;
  await showRange();
}

async function showRange() {
  const table = element('table').value;
  if (!table) return;
  range = await asked('range', {table});
  for (const [id, list] of [['day', range.days], ['moment', range.moments]]) {
    element(id).max = Math.max(0, list.length - 1);
    element(id).value = element(id).max;
    element(id).disabled = list.length < 2;
  }
  for (const id of ['first', 'second']) {
    element(id).replaceChildren(...range.moments.map(option));
  }
  element('second').value = range.moments[range.moments.length - 1] || '';
  await showState();
}

async function showState() {
  const table = element('table').value;
  const day = range.days[element('day').value] || null;
  const moment = range.moments[element('moment').value] || null;
  element('day-shown').textContent = day || 'all days';
  element('moment-shown').textContent = moment || 'now';
  element('day').setAttribute('aria-valuetext', day || 'all days');
  element('moment').setAttribute('aria-valuetext', moment || 'now');
  const state = await asked('state', {table, day, moment});
  element('state').replaceChildren(tableOf(
    `${table} on ${day || 'all days'}, as recorded by ${moment || 'now'}: ` +
    counted(state.rows, 'row'), state.columns, state.rows));
}

async function compare(event) {
  event.preventDefault();
  const given = {table: element('table').value, first: element('first').value,
    second: element('second').value};
  const found = await asked('changes', given);
  element('changes').replaceChildren(
    tableOf(`no more recorded: ${counted(found.gone, 'row')}`, found.columns, found.gone),
    tableOf(`newly recorded: ${counted(found.new, 'row')}`, found.columns, found.new));
}

const guarded = (call, place) => event => {
  Promise.resolve(call(event)).catch(error => failed(element(place), error));
};

element('question').addEventListener('submit', ask);
element('text').addEventListener('keydown', event => {
  if (event.key === 'Enter' && (event.ctrlKey || event.metaKey)) ask(event);
});
element('examples').addEventListener('change', event => {
  if (event.target.value) element('text').value = event.target.value;
  event.target.value = '';
  element('text').focus();
});
element('belief').addEventListener('submit', event => event.preventDefault());
element('table').addEventListener('change', guarded(showRange, 'state'));
for (const id of ['day', 'moment']) {
  element(id).addEventListener('input', guarded(showState, 'state'));
}
element('comparison').addEventListener('submit', event => {
  event.preventDefault();
  guarded(compare, 'changes')(event);
});
guarded(showTables, 'state')();
