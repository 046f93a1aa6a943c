// Runs jobk in a worker, so that a long run doesn't block the page. The first message is the module.

import { Program } from './program.js';

let program;

onmessage = async ({ data }) => {
  if (data.module) {
    program = new Program(data.module);
    return;
  }
  postMessage({ id: data.id, ran: await program.run(data.words, data.files) });
};
