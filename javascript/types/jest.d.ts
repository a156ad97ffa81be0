// Types of virtual-receipt-printer/jest: expect has toMatchPaper, as @types/jest has it.

import type { PaperOptions } from './testing.js';

declare global {
  namespace jest {
    interface Matchers<R, T = {}> {
      /** Compares paper with what was accepted; to be awaited. */
      toMatchPaper(options?: string | PaperOptions): Promise<R>;
    }
  }
}
