// For vitest's setupFiles: its expect has toMatchPaper from then on, and a test that doesn't await it fails.

import { afterEach, expect } from 'vitest';
import { refuseLate, toMatchPaper } from './testing.js';

expect.extend({ toMatchPaper });
// (tests may run at the same time, and a name has those of its suites before it)
afterEach(({ task }) => refuseLate(test => test === task.name || test.endsWith(` > ${task.name}`)));
