// What node has for this package: threads.

import { Worker } from 'node:worker_threads';

/** A thread of a script, which answers one question after the other; one that isn't asked keeps no process alive. */
export function newThread(script) {
  const worker = new Worker(script, { eval: true });
  return {
    ask(question, answer, fail) {
      worker.removeAllListeners('message').removeAllListeners('error').ref();
      worker.once('message', told => {
        worker.unref();
        answer(told);
      });
      worker.once('error', fail);
      worker.postMessage(question);
    },
    end() { worker.terminate(); },
  };
}
