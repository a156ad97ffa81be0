// In place of jest's globals: expect with the matchers that it is given, and the hooks behind each test.

const matchers = {};
export const hooks = [];
export const afterEach = hook => hooks.push(hook);
export const expect = { matchers, extend: more => Object.assign(matchers, more), getState: () => ({}) };
