// In place of playwright: test, which tells of the test that runs, and expect, which gives one with more matchers.

export const test = { info() { throw new Error('no test runs'); } };
export const expect = { extend: matchers => ({ matchers }) };
