// For jest's setupFilesAfterEnv: its expect has toMatchPaper from then on, and a test that doesn't await it fails.

import { afterEach, expect } from '@jest/globals';
import { refuseLate, toMatchPaper } from './testing.js';

expect.extend({ toMatchPaper });
afterEach(() => refuseLate(test => test === expect.getState().currentTestName));
