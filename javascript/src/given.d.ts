/** What pack.py puts into the package: the module and the sheets, packed (deflate without a head, in base64), what is
 * known of commands, the worker's script, and the version. */
export const given: {
  module: string;
  sheets: { a: string; b: string };
  known: object;
  worker: string;
  version: string;
};
