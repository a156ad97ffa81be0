// Types of virtual-receipt-printer/testing: goldens for runners of tests.

import type { Paper } from './index.js';

export interface PaperOptions {
  /** The name of a second paper of a test. */
  name?: string;
  /** Whether a paper may be accepted that ends in a fault, or lacks what a printer would print. */
  incomplete?: boolean;
}

interface Found {
  pass: boolean;
  message: () => string;
}

/** For expect.extend of jest and of vitest. */
export function toMatchPaper(this: unknown, received: unknown, options?: string | PaperOptions): Promise<Found>;

/** Refuses a test that has ended while its paper is compared, by its name: for a hook behind each test. */
export function refuseLate(isOwn: (test: string) => boolean): void;

/** For expect.extend of playwright, of its test. */
export function matchersFor(test: { info(): any }): {
  toMatchPaper(received: Paper | Promise<Paper>, options?: string | PaperOptions): Promise<Found>;
};

/** For node's own runner: an assertion for the tests of a file, by import.meta.url or __filename. */
export function papersOf(file: string): (
  context: { readonly name: string }, received: Paper | Promise<Paper>, options?: string | PaperOptions,
) => Promise<void>;
