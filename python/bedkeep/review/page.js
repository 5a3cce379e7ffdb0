'use strict';
{
  const byId = id => document.getElementById(id);
  const articles = [...document.querySelectorAll('article')];
  const rows = [...document.querySelectorAll('tr[data-sequence]')];
  const buttons = [...document.querySelectorAll('button.group')];
  const [find, command, sequence] = ['find', 'command', 'sequence'].map(byId);
  const key = `bedkeep seen ${document.body.dataset.key}`;
  let group = '', at = null;

  // Which lines were seen is kept by the browser, if it lets a page keep something.
  let seen = new Set();
  try { seen = new Set(JSON.parse(localStorage.getItem(key) || '[]')); } catch (error) { }
  const keepSeen = () => { try { localStorage.setItem(key, JSON.stringify([...seen])); } catch (error) { } };

  // All lines of a card that shows only the first ones: those in which the search finds something are left in its list.
  const lists = new Map(articles.map(article => [article, article.querySelector('.all')]).filter(([, list]) => list)
    .map(([article, list]) => [article, { list, rows: list.textContent.split('\n'), folded: list.textContent.toLowerCase().split('\n') }]));
  function found(article, searched) {
    const inCard = searched.every(text => article.dataset.search.includes(text)), listed = lists.get(article);
    if (!listed) return inCard;
    const rows = listed.rows.filter((row, place) => searched.every(text => listed.folded[place].includes(text)));
    listed.list.textContent = (rows.length ? rows : listed.rows).join('\n');
    listed.list.parentNode.open = searched.length > 0 && rows.length > 0;
    return inCard || rows.length > 0;
  }

  const inGroup = article => !group || (group === 'unseen' ? !seen.has(article.id) : article.dataset.groups.split('|').includes(group));

  function filter() {
    const searched = find.value.toLowerCase().split(/\s+/).filter(Boolean);
    let count = 0;
    for (const article of articles) {
      const data = article.dataset;
      article.hidden = !(inGroup(article) && (!command.value || data.command.split('|').includes(command.value))
        && (!sequence.value || data.sequence.split('\t').includes(sequence.value)) && found(article, searched));
      count += !article.hidden;
    }
    for (const row of rows) row.classList.toggle('on', row.dataset.sequence === sequence.value);
    for (const button of buttons) button.classList.toggle('on', button.dataset.group === group);
    byId('none').hidden = count > 0 || !articles.length;
    byId('shown').textContent = `${count} of ${articles.length} cards, ${seen.size} seen`;
  }

  for (const input of [find, command, sequence]) input.addEventListener('input', filter);
  for (const button of buttons) button.addEventListener('click', () => { group = button.dataset.group; filter(); });
  for (const row of rows) row.addEventListener('click', () => {
    const name = row.dataset.sequence;
    if (![...sequence.options].some(option => option.value === name)) return;
    sequence.value = sequence.value === name ? '' : name;
    filter();
  });
  for (const article of articles) {
    const box = article.querySelector('.seen');
    box.checked = seen.has(article.id);
    box.addEventListener('change', () => {
      if (box.checked) seen.add(article.id); else seen.delete(article.id);
      keepSeen();
      filter();
    });
  }
  byId('compact').addEventListener('click', event => event.target.classList.toggle('on', document.body.classList.toggle('compact')));

  // A link leads to its line even if that is filtered away, or on a card of several.
  const holds = (article, number) => article.dataset.lines.split(',').some(run => {
    const [first, last] = run.split('-').map(Number);
    return first <= number && number <= last;
  });
  addEventListener('hashchange', () => {
    const target = articles.find(article => holds(article, Number(location.hash.slice(2))));
    if (!target) return;
    if (target.hidden) all();
    target.scrollIntoView();
  });

  function copied(button) {
    const said = () => { button.textContent = 'copied'; };
    const byHand = () => {
      const area = document.body.appendChild(document.createElement('textarea'));
      area.value = button.dataset.text;
      area.select();
      if (document.execCommand('copy')) said();
      area.remove();
    };
    if (navigator.clipboard) navigator.clipboard.writeText(button.dataset.text).then(said, byHand); else byHand();
  }
  document.addEventListener('click', event => {
    const button = event.target.closest('button.copy');
    if (button) copied(button);
  });

  function all() {
    find.value = command.value = sequence.value = group = '';
    filter();
  }
  function go(article) {
    if (!article) return;
    if (at) at.classList.remove('at');
    at = article;
    at.classList.add('at');
    at.scrollIntoView({ block: 'nearest' });
  }
  function step(direction, wanted) {
    const shown = articles.filter(article => !article.hidden);
    const order = direction > 0 ? shown : shown.reverse();
    const place = order.indexOf(at);
    go(order.slice(place + 1).find(wanted));
  }
  const keys = {
    j: () => step(1, () => true),
    k: () => step(-1, () => true),
    n: () => step(1, article => article.classList.contains('refused')),
    x: () => { if (at) at.querySelector('.seen').click(); },
    '/': () => find.focus(),
    Escape: all,
  };
  document.addEventListener('keydown', event => {
    const typing = /INPUT|SELECT|TEXTAREA/.test(event.target.tagName) && event.target.type !== 'checkbox';
    if (typing && event.key === 'Escape') event.target.blur();
    if (typing || event.ctrlKey || event.metaKey || event.altKey || !keys[event.key]) return;
    event.preventDefault();
    keys[event.key]();
  });
  filter();
}
