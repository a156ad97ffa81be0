// What browsers have for this package: threads.

/** A thread of a script, which answers one question after the other. */
export function newThread(script) {
  const address = URL.createObjectURL(new Blob([script], { type: 'text/javascript' }));
  const worker = new Worker(address);
  URL.revokeObjectURL(address);
  return {
    ask(question, answer, fail) {
      worker.onmessage = event => answer(event.data);
      worker.onerror = fail;
      worker.postMessage(question);
    },
    end() { worker.terminate(); },
  };
}
