// Shows one of several panes, and has the session announce it; arrow keys move between the tabs.

const tabs = () => [...document.querySelectorAll('[role=tab]')];

function choose(tab, session) {
  for (const it of tabs()) {
    it.setAttribute('aria-selected', it === tab);
    it.tabIndex = it === tab ? 0 : -1;
    document.getElementById(it.getAttribute('aria-controls')).hidden = it !== tab;
  }
  session.tell('shown');
}

export function showTabs(session) {
  const all = tabs();
  for (const [i, tab] of all.entries()) {
    tab.onclick = () => choose(tab, session);
    tab.onkeydown = event => {
      const way = { ArrowRight: 1, ArrowLeft: -1 }[event.key];
      if (!way) return;
      event.preventDefault();
      event.stopPropagation();
      const next = all[(i + way + all.length) % all.length];
      next.focus();
      choose(next, session);
    };
  }
}
