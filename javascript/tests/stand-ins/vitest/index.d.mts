export interface Assertion<T = any> {
  toBe(wanted: T): void;
}
export function expect<T>(received: T): Assertion<T>;
