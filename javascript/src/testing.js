// What tests use of the package: goldens for their runners.

import { matchersFor, papersOf, refuseLate, toMatchPaper } from './matching.js';

export { matchersFor, papersOf, refuseLate, toMatchPaper };
