// A worker that runs jobk, one run after another. To stop a run, `stop` terminates the worker and starts another one.

const textOf = bytes => new TextDecoder().decode(bytes);

export class Runner {
  constructor(makeWorker, module) {
    this.makeWorker = makeWorker;
    this.module = module;
    this.id = 0;
    this.start();
  }

  start() {
    this.waiting = new Map();
    this.worker = this.makeWorker();
    this.worker.postMessage({ module: this.module });
    this.worker.onmessage = ({ data: { id, ran } }) => {
      const { answer } = this.waiting.get(id);
      this.waiting.delete(id);
      answer({ ...ran, out: textOf(ran.out), err: textOf(ran.err) });
    };
  }

  // Returns the status, both outputs as texts, and the milliseconds; null if the run is stopped.
  run(words, files) {
    return new Promise(answer => {
      this.waiting.set(++this.id, { answer, since: performance.now() });
      this.worker.postMessage({ id: this.id, words, files });
    });
  }

  stop() {
    this.worker.terminate();
    for (const { answer } of this.waiting.values()) answer(null);
    this.start();
  }

  // Stops the runs if the first one takes longer than `ms`; called when their results are no longer needed.
  stopIfLong(ms = 500) {
    const [first] = this.waiting.values();
    if (first && performance.now() - first.since > ms) this.stop();
  }
}
