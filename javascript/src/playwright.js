// For tests of playwright: its test, and its expect with toMatchPaper.

import { expect as base, test as runner } from '@playwright/test';
import { matchersFor } from './testing.js';

const test = runner;
const expect = base.extend(matchersFor(runner));

export { expect, test };
