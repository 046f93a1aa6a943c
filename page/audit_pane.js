// The audit of a trace, which may come from any kernel.

import { $ } from './dom.js';

async function audit(session, faults) {
  const ran = await session.jobk.audit($('audited').value);
  if (!ran) return;
  const [, line, fault] = /^line (\d+): fault (\d+)/.exec(ran.out) ?? [];
  const text = line ? $('audited').value.split('\n')[line - 1] ?? '' : '';
  $('verdict').className = ran.status === 0 ? 'right' : 'wrong';
  $('verdict').textContent = ran.status === 0 ? '✓ ok' : `✗ ${(ran.out || ran.err).trim()}`;
  $('why').textContent = line ? `${text}\n${faults[fault] ?? ''}` : '';
}

export function showAudit(session, faults) {
  $('audit').querySelector('form').onsubmit = event => {
    event.preventDefault();
    audit(session, faults);
  };
  $('this-trace').onclick = () => {
    $('audited').value = session.trace;
    audit(session, faults);
  };
}

export function showTrace(trace) {
  $('audited').value = trace;
  $('tab-audit').click();
  $('audit').querySelector('form').requestSubmit();
}
