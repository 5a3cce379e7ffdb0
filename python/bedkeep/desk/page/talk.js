// The server: what is asked of it, what it says of its own, and when it doesn't answer.
import { byId, desk, el, lostBox } from './state.js';

const PATIENCE = 4000; // ms until the page says that there is no answer
const ENDED = 'The desk does not answer: it has ended, or was killed. What was accepted is in the script. Start it again, and open the address that it prints.';
const SLOW = 'The desk has not answered for some seconds: it may be suspended, or its disk is busy. It goes on once it answers; nothing else is sent before.';

class Gone extends Error { constructor(text) { super(text || ENDED); } }
addEventListener('unhandledrejection', event => { if (event.reason instanceof Gone) event.preventDefault(); }); // it was said already

export const query = values => new URLSearchParams(values).toString();

export async function call(path, body) {
  const slow = setTimeout(() => lost(SLOW, 'slow'), PATIENCE);
  let answer, text;
  try {
    answer = await fetch(`api/${path}`, body ? { method: 'POST', headers: { 'Content-Type': 'application/json' }, body: JSON.stringify(body) } : undefined);
    text = await answer.text();
  } catch (error) {
    lost(ENDED, 'ended');
    throw new Gone();
  } finally {
    clearTimeout(slow);
  }
  found('slow', 'ended');
  const json = (answer.headers.get('Content-Type') || '').startsWith('application/json') ? JSON.parse(text) : { error: text };
  if (answer.status === 503) {
    lost(json.error, 'unwell');
    if (json.passes) setTimeout(again, PATIENCE);
    throw new Gone(json.error);
  }
  if (answer.status === 507) lost(json.error, 'unwell');
  else if (path.startsWith('state') ? !json.unwell : json.entry) found('unwell');
  if (!answer.ok) throw new Error(json.error);
  return json;
}

// Says what is wrong until it is well again. why: ended, slow, unwell
let wrong = '';
export function lost(text, why) {
  wrong = why;
  lostBox.replaceChildren(el('span', {}, text), why === 'ended' || why === 'slow' ? '' : el('button', { type: 'button', onclick: again }, 'Try again'));
  lostBox.hidden = false;
}

function found(...why) {
  if (!why.includes(wrong)) return;
  wrong = '';
  lostBox.hidden = true;
}
export const isWell = () => !wrong;

let hear = () => {}, again = () => {};
// hears: what is called when the state has another version; retry: when somebody asks whether all is well again
export function onNews(hears, retry) { [hear, again] = [hears, retry]; }

let events = null, heard = 0, sending = 0;

// What another tab or another program did is loaded, but not while an edit of this one is on its way.
async function catchUp() {
  if (desk.state && !sending && heard > desk.state.version) await hear();
}

// Sends what changes the state, and keeps the version that comes back.
export async function change(path, body) {
  sending += 1;
  try {
    const answer = await call(path, body);
    if (answer.version) desk.state.version = Math.max(desk.state.version, answer.version);
    return answer;
  } finally {
    sending -= 1;
    setTimeout(catchUp);
  }
}

export function listen() {
  if (events) events.close();
  events = new EventSource('api/events');
  events.onopen = () => found('ended');
  events.onmessage = async event => {
    heard = Math.max(heard, Number(event.data));
    await catchUp();
  };
  events.onerror = () => { if (!document.hidden) lost(ENDED, 'ended'); };
}

// A hidden tab holds no connection: a browser has only six for one server.
document.addEventListener('visibilitychange', () => {
  if (!desk.state) return;
  if (document.hidden && events) { events.close(); events = null; } else if (!document.hidden) { listen(); hear(); }
});

// Waits until the server has read the track, and says so.
export async function opened() {
  for (;;) {
    const state = await call('state');
    if (!state.reading) return state;
    byId('reading').textContent = state.reading;
    byId('reading').hidden = false;
    await new Promise(done => setTimeout(done, 200));
  }
}
