/** A thread of a script, which answers one question after the other. */
export function newThread(script: string): {
  ask(question: object, answer: (told: any) => void, fail: (error: any) => void): void;
  end(): void;
};
