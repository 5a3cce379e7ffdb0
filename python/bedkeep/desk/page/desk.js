// The desk, from its begin on: it waits until the track is read, shows what was seen last, and hears of what others do.
import { attempt, learn, remember } from './drafts.js';
import { byId, desk, el, sequenceBox, say } from './state.js';
import { call, listen, lost, onNews, opened } from './talk.js';
import { inHand } from './hand.js';
import { lists } from './lists.js';
import { go, look, survey } from './view.js';
import { number, short, shown } from './text.js';
import './keys.js';
import './pointer.js';

const MOST_SEQUENCES = 5000; // in the list; all can be found

// What another tab or another program did is taken over. It may have taken what this tab has in hand, so that is tried again.
async function news() {
  const before = desk.state.corrections.length;
  learn(await call(`state?since=${desk.state.version}`));
  if (desk.state.corrections.length > before) say('A correction was made elsewhere.');
  told();
  await Promise.all([look(true), survey()]);
  lists();
  if (desk.draft || !document.activeElement.matches('#hand input')) inHand(); // else somebody types there
  attempt();
}

// Says what the desk says of itself: that the script was changed by another program, or that nothing is taken.
function told() { if (desk.state.unwell) lost(desk.state.unwell, 'unwell'); }
onNews(news, async () => { learn(await call(`state?since=${desk.state.version}`)); told(); });

function sequences(all) {
  const options = all.slice(0, MOST_SEQUENCES).map(([sequence, , count]) =>
    el('option', { value: sequence }, `${short(shown(sequence), 40)}${count ? `  (${number(count)})` : ''}`));
  if (all.length > MOST_SEQUENCES) options.push(el('option', { disabled: true },
    `.. and ${number(all.length - MOST_SEQUENCES)} more: type the name in the search`));
  sequenceBox.replaceChildren(...options);
}

async function start() {
  desk.state = await opened();
  byId('reading').hidden = true;
  byId('bar').inert = false;
  const { sequences: all, corrections, worklist, files } = desk.state, known = new Set(all.map(one => one[0]));
  document.title = `${shown(files.bed.split('/').pop())} · bedkeep desk`;
  sequences(all);
  for (const reason of new Set(corrections.slice(-2000).map(entry => entry.reason))) remember(reason);
  const hash = /^#(.+):(-?\d+)-(-?\d+)$/.exec(location.hash), there = hash && known.has(decodeURIComponent(hash[1]));
  const fullest = all.reduce((best, one) => one[2] > best[2] ? one : best, all[0] || ['', 0, 0]);
  go(there ? [decodeURIComponent(hash[1]), +hash[2], +hash[3]] : [fullest[0], 0, fullest[1]]);
  if (worklist && worklist.open) desk.tab = 'worklist';
  lists();
  inHand();
  listen();
  told();
}

addEventListener('beforeunload', event => { if (desk.draft && byId('why') && byId('why').value) event.preventDefault(); });
start().catch(error => lost(error.message, 'ended'));
