// What the sources use of node and of runners of tests, whose own types aren't here.

declare module 'node:*';
declare module 'vitest';
declare module '@jest/globals';
declare module '@playwright/test';
declare const process: { env: Record<string, string | undefined>; execArgv: string[]; argv: string[] };
declare function require(name: string): any;
