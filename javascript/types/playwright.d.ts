// Types of virtual-receipt-printer/playwright: its test, and its expect with toMatchPaper.

import { expect as base, test } from '@playwright/test';
import { matchersFor } from './testing.js';

declare const expect: ReturnType<typeof base.extend<ReturnType<typeof matchersFor>>>;
export { expect, test };
