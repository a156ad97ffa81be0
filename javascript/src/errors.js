// What is raised: every misuse and every bound that is reached is a VpError, which says what is meant.

/** An error of this package: its code says which kind, its text what is wrong. */
export class VpError extends Error {
  /**
   * @param {string} code  argument, sheet, stream, paper, closed, too-much, module, memory, worker or golden
   * @param {string} text
   * @param {{reached?: object, paper?: object}} more  of too-much the bound, and what was printed before
   */
  constructor(code, text, { reached = null, paper = null } = {}) {
    super(`vp: ${text}`);
    this.name = 'VpError';
    this.code = code;
    this.reached = reached;
    this.paper = paper;
  }
}

/** What a value is, to be read. */
export function named(value) {
  if (value === null || value === undefined) return String(value);
  if (typeof value === 'string') return value.length > 40 ? 'a string' : JSON.stringify(value);
  if (typeof value === 'function') return 'a function';
  if (typeof value !== 'object') return String(value);
  const name = value.constructor?.name;
  return name && name !== 'Object' ? `${/^[AEIOU]/.test(name) ? 'an' : 'a'} ${name}` : 'an object';
}

/** The options of something, which has these names alone. */
export function optionsOf(options, names, what) {
  if (typeof options !== 'object' || options === null) {
    throw new VpError('argument',
      `the options of ${what} are an object, as { ${names[0]}: .. }, and not ${named(options)}`);
  }
  for (const name of Object.keys(options)) {
    if (!names.includes(name)) {
      throw new VpError('argument', `${what} has no option ${name}: it has ${names.join(', ')}`);
    }
  }
  return options;
}

/** Whether something is bytes, of this realm or of another one, as tests have several. */
export const isBuffer = value => /^\[object (?:Shared)?ArrayBuffer\]$/.test(Object.prototype.toString.call(value));
export const isBytes = value => ArrayBuffer.isView(value) || isBuffer(value);

/** The bytes of a view or a buffer, which stay where they are. */
export function bytesOf(value) {
  return isBuffer(value) ? new Uint8Array(value) : new Uint8Array(value.buffer, value.byteOffset, value.byteLength);
}

export const number = value => value.toLocaleString('en');
export const plural = (count, what) => `${number(count)} ${what}${count === 1 ? '' : 's'}`;

/** Refuses what is no language. */
export function checkLanguage(language) {
  if (language === 'receipt' || language === 'label') return;
  throw new VpError('argument', `a language is 'receipt' or 'label', and not ${named(language)}`);
}
