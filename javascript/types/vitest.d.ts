// Types of virtual-receipt-printer/vitest: expect has toMatchPaper.

import 'vitest';
import type { PaperOptions } from './testing.js';

declare module 'vitest' {
  interface Assertion<T = any> {
    /** Compares paper with what was accepted; to be awaited. */
    toMatchPaper(options?: string | PaperOptions): Promise<void>;
  }
}
