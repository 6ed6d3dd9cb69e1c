// Reads reports back out of a browser. Of each report of list.js it writes into this page, after a line `@NAME KIND`, lines
// that begin with a blank:
//   facts    what the page shows, in the very lines of tests/c/shown.c
//   sums     the files' sums
//   name     the folder's name, in the page's head and above it
//   listing  the records and the answer, as the program replay prints them
//   pages    the pages written and the answer, as the program pages prints them
//   said     what the page says in words of the verdict, the board and the pages
//   faults   what no report may have; nothing is due here
//   words    all text that can be seen, without blanks, and
//   heading  the height of the heading's letters, in points (both of the reports that are printed)
// The last line is `@looked` and how many reports there were.

const frame = document.getElementById('report');
const seen = [];
const CSP = "default-src 'none'; style-src 'unsafe-inline'";
const SECTIONS = 'verdict basis map bytes records';

function put(name, kind, lines) {
  seen.push(`@${name} ${kind}`, ...lines.flatMap(line => line.split('\n')).map(line => ` ${line}`));
}

const all = (from, selector) => [...from.querySelectorAll(selector)];

const text = (from, selector) => all(from, selector).map(found => found.textContent).join('|');

// Which of these classes an element has.
const classes = (element, ...names) => names.filter(name => element.classList.contains(name)).join('+');

// What the page shows.

// Counts of many digits have their thousands parted by commas.
const numbers = words => words.match(/\d+(,\d{3})*/g) || [];

// What the words on a refusal say: the numbers (the document that has the form is none), and of a record that cannot be the
// bus's state and the record before it.
function told(page) {
  const said = page.querySelector('#verdict p.answer').textContent;
  const impossible = /line (\d+) can't be: (.*?)( \(before it on channel [FE]: (.*) on line (\d+)\))?\.$/;
  const [, line, why, , before, on] = impossible.exec(said) || [];
  if (line === undefined) return ['told', ...numbers(said.replace('document 01', ''))].join(' ');
  const states = { 'selected already': 'open', 'not selected': 'idle', 'from a cut': 'cut', 'no sta since': 'idle' };
  const state = Object.keys(states).filter(words => why.includes(words)).map(words => states[words]).join('+');
  return `told ${line} ${state}${before ? ` [${before}] ${on}` : ''}`;
}

// How many replies were compared and how many disagree; the lines of the first that do, by links to their rows, and how many
// more.
function comparedFacts(page) {
  const [before, after = ''] = text(page, '#verdict #compared').split('(line');
  const [compared = 0, count = 0] = numbers(before);
  const rows = all(page, '#verdict a[href^="#line-"]').map(link => page.querySelector(link.getAttribute('href')));
  const [, more = 0] = / and ([\d,]+) more/.exec(after) || [];
  return [`compared ${compared} ${count}`, `${['disagree', ...rows.map(row => text(row, '.n'))].join(' ')}, more ${more}`];
}

function runningFact(said) {
  const [, chip, line] = /^A write cycle of the (flash|EEPROM), started on line (\d+), still runs/.exec(said) || [];
  return `running ${chip.toLowerCase()} ${line}`;
}

// The stop's stamp: a column a channel, with its records' number, the first records, and how many more.
function stampFacts(table) {
  const heads = all(table, 'thead th').map(head => head.textContent);
  const channels = heads.map(head => head.split(' ')[0]);
  const cells = (row, name, content) => [...row.cells].map((cell, column) => `${name} ${channels[column]}${content(cell)}`);
  const record = cell => ` ${stopped(cell)}`;
  const more = cell => numbers(cell.textContent).map(number => ` ${number}`).join('');
  return [
    ...heads.map((head, column) => `stop ${channels[column]} ${numbers(head).join(' ')}`),
    ...all(table, 'tbody tr:not(.rest)').flatMap((row, place) => cells(row, `stop ${place + 1}`, record)),
    ...all(table, 'tbody tr.rest').flatMap(row => cells(row, 'rest', more)),
  ];
}

function board(page) {
  const said = all(page, '#basis ul#board li').map(item => item.textContent);
  if (said.length === 0) return 'board not told';
  const [, status, locked, wpen] = /is ([0-9a-f]{2}): (.*) locked.*WPEN (\d)/.exec(said[0]);
  const sectors = { 'no sector is': 'none', 'all four sectors are': 'all' }[locked] || numbers(locked).join('');
  const [, sector, from, to] = /sector (\d) .* ([0-9a-f]{5}) to ([0-9a-f]{5})/.exec(said[1]);
  const [, wired, bits] = /address (\d) .*= (\d{3})\)/.exec(said[2]);
  return `board ${status}, locked ${sectors}, ${wpen}, sector ${sector} from ${from} to ${to}, wired ${wired} ${bits}`;
}

function verdictFacts(page) {
  const verdict = page.getElementById('verdict');
  const refused = verdict.classList.contains('refused');
  return [
    ...all(page, '#files tbody tr').map(row => `size ${text(row, 'th')} ${text(row, '.size')}`),
    ...all(page, '#files tbody tr').map(row => `is ${text(row, 'th')} ${text(row, '.is')}`),
    `verdict ${classes(verdict, 'settled', 'stopped', 'refused')}`,
    `last ${text(verdict, 'code#last')}`,
    ...refused ? [told(page)] : [`extent ${numbers(text(page, '#verdict #extent')).join(' ')}`, ...comparedFacts(page)],
    ...all(page, '#verdict p.running').map(said => runningFact(said.textContent)),
    ...all(page, '#verdict table#line').flatMap(lineFacts),
    ...all(page, '#verdict table#stamp').flatMap(stampFacts),
    board(page),
  ];
}

// A record has its class, and a place without one has nothing.
function stopped(cell) {
  const right = cell.classList.contains('rec') === (cell.textContent !== '');
  return right ? cell.textContent : `${cell.className}: ${cell.textContent}`;
}

function lineFacts(table) {
  const heads = all(table, 'thead th').map(head => head.textContent);
  return [...table.tBodies[0].rows[0].cells].map((cell, column) => {
    if (cell.classList.contains('more')) return `more ${numbers(cell.textContent).join(' ')}`;
    const bad = cell.classList.contains('bad') ? ' bad' : '';
    if (cell.classList.contains('missing')) return `field ${heads[column]}${bad ? '' : ' good'} ${cell.textContent}`;
    if (cell.classList.contains('none')) return `field ${heads[column]}${bad} none ${cell.textContent}`;
    return `field ${heads[column]}${bad}: ${escapes(cell)}`;
  });
}

// The text of a cell. A byte shown as its number is in brackets, so that no text looks like it; any other element is told.
function escapes(cell) {
  return [...cell.childNodes].map(node => {
    if (node.nodeType === Node.TEXT_NODE) return node.data;
    return node.matches('span.x') ? node.textContent.replace(/\\x[0-9a-f]{2}/g, '[$&]') : `<${node.nodeName}>`;
  }).join('');
}

function squareFacts(page, chip) {
  const squares = all(page, `#map table#${chip}-map td.sq`);
  const count = (...kind) => all(page, `#${chip}-map .sq.${kind.join('.')}`).length;
  const counts = wrote => ['sure', 'some', 'all'].map(degree => count(wrote, degree)).join(' ');
  return [
    ...squares.map(square =>
      `square ${chip} ${classes(square, 'never', 'written')} ${classes(square, 'sure', 'some', 'all')} ${square.title}`),
    `squares ${chip} ${squares.length}: never ${counts('never')}, written ${counts('written')} (sure, some, all)`,
    ...all(page, `#${chip}-map`).map(map => `summed ${chip} ${numbers(map.previousElementSibling.textContent).join(' ')}`),
  ];
}

const writtenRows = (page, chip) => all(page, `#map table#${chip}-written tbody tr`);

const writtenFacts = (page, chip) => writtenRows(page, chip).map(row =>
  `written ${chip} ${['.page', '.from', '.time', '.by', '.doubt'].map(name => text(row, name)).join(' ')}`);

let marked = 0; // doubtful bits that are shown

const hex = number => number.toString(16).padStart(2, '0');

// A byte as value/mask: two digits, two marks, or eight bits in two rows, of which each may be a mark.
function byteFact(cell) {
  const shown = [...cell.childNodes].map(node => node.nodeName === 'BR' ? '/' : node.textContent).join('');
  const kind = classes(cell, 'some', 'all');
  if (kind === '' && /^[0-9a-f]{2}$/.test(shown)) return `${shown}/00`;
  if (kind === 'all' && shown === '??') {
    marked += 8;
    return '00/ff';
  }
  if (kind !== 'some' || !/^[01?]{4}\/[01?]{4}$/.test(shown)) return `${kind}:${shown}`;
  const bits = shown.replace('/', '');
  marked += bits.split('?').length - 1;
  return `${hex(parseInt(bits.replace(/\?/g, '0'), 2))}/${hex(parseInt(bits.replace(/1/g, '0').replace(/\?/g, '1'), 2))}`;
}

function rowFact(row) {
  if (row.classList.contains('same')) {
    const [, count, , last] = /^(\d+) more (row|rows) the same, to ([0-9a-f]+)$/.exec(row.textContent.trim()) || [];
    return `same ${count} to ${last}`;
  }
  return `row ${text(row, 'th')} ${all(row, 'td.b').map(byteFact).join(' ')} ${text(row, 'td.text')}|`;
}

function alikeFact(said) {
  const when = /^(Flash|EEPROM), pages? (\d+)( to (\d+))?, (last written at (\d+)|never written): (.*)$/;
  const [, chip, first, , last, , stamp, rest] = when.exec(said) || [];
  const [, page] = /^the same, bit by bit, as page (\d+)\.$/.exec(rest) || [];
  return `alike ${chip.toLowerCase()} ${first} to ${last || first} ${stamp ? `at ${stamp}` : 'never'} as ${page}`;
}

function pageFacts(table) {
  const heading = numbers(table.previousElementSibling.textContent);
  return [`page ${table.id}: ${heading.join(' ')}`, ...all(table, 'tbody tr').map(rowFact)];
}

const byteFacts = page => all(page, '#bytes table[id], #bytes p.alike').flatMap(shown =>
  shown.matches('table') ? pageFacts(shown) : [alikeFact(shown.textContent)]);

const recordRows = page => all(page, '#records table#listing tbody tr');

function recordFacts(page) {
  const stamps = all(page, '#listing tbody');
  const count = selector => all(page, `#listing ${selector}`).length;
  return [
    ...stamps.flatMap((stamp, place) => all(stamp, 'tr').map(row =>
      `record ${place + 1} ${['.n', '.t', '.c', '.e', '.r', '.m'].map(name => text(row, name)).join(' ')}`)),
    `records ${count('tbody tr')}, bad ${count('tr.bad')}, stamps ${stamps.length}, tied ${count('tbody.tied')}`,
  ];
}

function facts(page) {
  marked = 0;
  return [
    ...verdictFacts(page),
    ...squareFacts(page, 'flash'),
    ...squareFacts(page, 'eeprom'),
    ...writtenFacts(page, 'flash'),
    ...writtenFacts(page, 'eeprom'),
    ...byteFacts(page),
    `marked ${marked}`,
    ...recordFacts(page),
  ];
}

// What the programs print. Of a refused trace that is the answer alone.

const answer = page => text(page, 'code#last').replace(/ /g, '\t');

function asPrinted(page, heading, lines) {
  return page.querySelector('#verdict.refused') ? [answer(page)] : [heading.join('\t'), ...lines, answer(page)];
}

const listing = page => asPrinted(page, ['line', 'stamp', 'reply', 'match'],
  recordRows(page).map(row => ['.n', '.t', '.r', '.m'].map(name => text(row, name)).join('\t')));

const pages = page => asPrinted(page, ['chip', 'page', 'stamp'], ['flash', 'eeprom'].flatMap(chip =>
  writtenRows(page, chip).map(row => [chip, text(row, '.page'), text(row, '.time')].join('\t'))));

// What no report may have.

// Anything that runs, or that would be fetched.
function strangers(page) {
  const found = [];
  for (const element of all(page, '*')) {
    const kind = element.localName;
    if (/^(script|link|base|iframe|object|embed|img|form)$/i.test(kind)) found.push(`an element ${kind}`);
    for (const { name, value } of element.attributes) {
      if (/^(on.*|src|srcset|data|action|ping|background|poster)$/i.test(name)) found.push(`an attribute ${name}`);
      if (/href$/i.test(name) && !/^#/.test(value)) found.push(`a link to ${value}`);
    }
  }
  for (const style of all(page, 'style, [style]').map(element => element.outerHTML))
    if (/url\(|@import|image-set/i.test(style)) found.push('a style that fetches');
  return found;
}

function form(page) {
  const found = [];
  const due = (what, is, wanted) => is === wanted || found.push(`${what} is ${is}, not ${wanted}`);
  const ids = all(page, '[id]').map(element => element.id);
  due('the mode', page.compatMode, 'CSS1Compat');
  due('the first word', all(page, 'head > :first-child').map(meta => meta.getAttribute('charset')).join(), 'utf-8');
  due('what may be fetched', all(page, 'head [http-equiv="Content-Security-Policy"]').map(meta => meta.content).join(), CSP);
  due('the sections', all(page, 'section').map(section => section.id).join(' '), SECTIONS);
  due('the number of ids', ids.length, new Set(ids).size);
  due('the tables beside a refusal', all(page, '#verdict.refused ~ :is(#map, #bytes, #records) table').length, 0);
  due('the resources', frame.contentWindow.performance.getEntriesByType('resource').length, 0);
  for (const id of all(page, '[href^="#"]').map(link => link.getAttribute('href').slice(1)))
    if (id !== '' && !ids.includes(id)) found.push(`a link to #${id}, which is nowhere`);
  if (page.title.trim() === '') found.push('no title');
  return found;
}

// Every text can be seen, whole and within the page's width.
function hidden(page) {
  const width = page.documentElement.clientWidth;
  const found = [];
  if (page.documentElement.scrollWidth > width) found.push(`${page.documentElement.scrollWidth} wide in ${width}`);
  for (const element of all(page.body, '*')) {
    const style = getComputedStyle(element);
    const name = `${element.localName}.${element.className} ${element.textContent.slice(0, 40)}`;
    if (style.overflow !== 'visible' && element.scrollHeight > element.clientHeight + 1) found.push(`cut off: ${name}`);
    const own = [...element.childNodes].some(node => node.nodeType === Node.TEXT_NODE && node.data.trim() !== '');
    if (!own && !element.matches('.sq')) continue;
    const { left, right, height } = element.getBoundingClientRect();
    const wider = element.clientWidth > 0 && element.scrollWidth > element.clientWidth + 1;
    const shown = element.checkVisibility({ opacityProperty: true, visibilityProperty: true });
    if (!shown || height < 4 || parseFloat(style.fontSize) < 6) found.push(`hidden: ${name}`);
    else if (left < 0 || right > width || right - left < 4) found.push(`beside the page: ${name}`);
    else if (wider) found.push(`wider than its place: ${name}`);
  }
  return found;
}

// No colour and no background is among these: a printer may leave them out.
const LOOK = ['border-top-style', 'border-top-width', 'border-left-style', 'border-left-width', 'font-weight'];

// Elements of different kinds must look different: in what stands in them, if that is asked, or in how they are drawn.
function alike(elements, kindOf, contentOf) {
  const kinds = new Map();
  for (const element of elements) {
    const style = getComputedStyle(element);
    const look = [contentOf(element), ...LOOK.map(name => style.getPropertyValue(name))].join(';');
    kinds.set(look, (kinds.get(look) || new Set()).add(kindOf(element)));
  }
  return [...kinds.values()].filter(same => same.size > 1).map(same => `looking alike: ${[...same].join(', ')}`);
}

const squareKind = square => `${classes(square, 'never', 'written')} ${classes(square, 'sure', 'some', 'all')}`;

// But for what every page says alike, which the reports that are held have.
const said = page => all(page, '#verdict p, #basis li, #map > p, #bytes > p:not(.alike):not(:first-of-type), #records > p + div + p')
  .map(words => words.textContent);

function faults(page) {
  return [
    ...strangers(page),
    ...form(page),
    ...hidden(page),
    ...alike(all(page, '.sq'), squareKind, square => square.textContent),
    ...alike(all(page, '#listing .n'), cell => cell.closest('tr').className || 'a good reply', () => ''),
    ...alike(all(page, '#listing .br'), cell => cell.closest('tbody').className || 'a stamp of one record', () => ''),
  ].slice(0, 20);
}

function lookAt(name) {
  const page = frame.contentDocument;
  put(name, 'facts', facts(page));
  put(name, 'sums', all(page, '#files tbody tr').map(row => `sum ${text(row, 'th')} ${text(row, '.sum')}`));
  put(name, 'name', [`title ${page.title}`, `folder ${text(page, 'header #folder')}`]);
  put(name, 'listing', listing(page));
  put(name, 'pages', pages(page));
  put(name, 'said', said(page));
  put(name, 'faults', faults(page));
  if (!printed.includes(name)) return;
  put(name, 'words', [page.body.innerText.replace(/\s+/g, '')]);
  put(name, 'heading', [`${parseFloat(getComputedStyle(page.querySelector('h1')).fontSize) * 0.75}`]);
}

function next(place) {
  if (place === reports.length) {
    seen.push(`@looked ${place}`);
    document.getElementById('seen').textContent = seen.join('\n');
    console.log('looked'); // the one word that is due on the console
    return;
  }
  frame.onload = () => {
    try {
      lookAt(reports[place]);
    } catch (error) {
      put(reports[place], 'faults', [`not readable: ${error}`]);
    }
    next(place + 1);
  };
  frame.src = `${reports[place]}.html`;
}

next(0);
