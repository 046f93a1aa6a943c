// The page: the world and the events on the left, their results on the right; all views show the same chosen event.

import { showAudit } from './audit_pane.js';
import { $ } from './dom.js';
import { showEditors } from './editors.js';
import { Examples } from './examples.js';
import { Jobk } from './jobk.js';
import { listenToKeys } from './keyboard.js';
import { showLanes } from './lanes_pane.js';
import { longestLink } from './limits.js';
import { fragmentOf, textsOf } from './link.js';
import { Player } from './playing.js';
import { moduleOf } from './program.js';
import { showPuttingIn } from './putting_in.js';
import { bytesOfFile, jsonOfFile, makerOfWorkers } from './resources.js';
import { Explorer } from './schedules_pane.js';
import { Session } from './session.js';
import { showStates } from './state_pane.js';
import { showTabs } from './tabs.js';
import { showTimeline } from './timeline.js';
import { showLists } from './trace_pane.js';

// Puts the texts into the address, unless they are too long.
async function remember(session) {
  const { texts, at } = session;
  const fragment = await fragmentOf({ ...texts, at });
  const fits = fragment.length <= longestLink;
  if (texts === session.texts && at === session.at) history.replaceState(null, '', fits ? fragment : '#');
  return fits;
}

async function copyLink(session) {
  if (!await remember(session)) {
    $('told').textContent = 'the texts are too long for a link; save them as files';
    return;
  }
  const isCopied = await navigator.clipboard?.writeText(location.href).then(() => true, () => false);
  $('told').textContent = isCopied ? 'the link is copied' : 'the link is in the address line';
}

function showStatus(session) {
  session.on('asked', () => { $('run').ariaBusy = 'true'; });
  session.on('ran refused', () => { $('run').ariaBusy = 'false'; });
  session.on('busy', () => { $('told').textContent = 'running …'; });
  session.on('ran', () => { $('told').textContent = `ran in ${session.ms.toFixed(1)} ms`; });
  session.on('refused', () => { $('told').textContent = ''; });
  let pause;
  session.on('state refused', () => {
    clearTimeout(pause);
    pause = setTimeout(() => remember(session), 300);
  });
  $('share').onclick = () => copyLink(session);
}

function showLarge(session, redraw) {
  $('large').onclick = () => {
    const isLarge = document.documentElement.classList.toggle('large');
    $('large').setAttribute('aria-pressed', isLarge);
    redraw();
    session.tell('shown');
  };
}

function showBuild({ commit, toolchain, date, isProved }) {
  const what = isProved ? 'The results come from proved code, compiled to WebAssembly by LLVM; the page that shows them is not proved.'
    : 'This build is not proved: it is for trying and testing.';
  $('build').textContent = `${what} jobk ${commit}, ${toolchain}, ${date}.`;
}

async function start() {
  const [module, build, examples, makeWorker, linked] = await Promise.all([
    moduleOf(bytesOfFile), jsonOfFile('build.json'), jsonOfFile('examples.json'), makerOfWorkers('worker.js'),
    textsOf(location.hash),
  ]);
  showBuild(build);
  const session = new Session(new Jobk(makeWorker, module));
  showTabs(session);
  showEditors(session, build.remedies);
  const redraw = showTimeline(session);
  showPuttingIn(session);
  showLists(session);
  showLanes(session);
  showStates(session);
  showAudit(session, build.faults);
  showStatus(session);
  showLarge(session, redraw);
  new Explorer(session);
  listenToKeys(session, new Player(session));
  const list = new Examples(examples, session);
  onhashchange = async () => {
    const texts = await textsOf(location.hash);
    if (texts) session.change(texts);
  };
  const { world, events } = list.first;
  await session.change(linked ?? { world, events, at: 47 });
  document.documentElement.dataset.ready = 'true';
}

start().catch(error => {
  $('refused').hidden = false;
  $('refused').textContent = `✗ this page can’t start: ${error.message}`;
});
