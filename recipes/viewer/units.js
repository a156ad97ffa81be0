// Millimetres and inches of paper: sizes in words, a ruler's ticks, a grid's lines.

const INCH = 25.4;
// The least pixels from one line of a grid to the next, and from one number of a ruler to the next.
const [APART, WRITTEN, TICK] = [6, 48, 5];
// Steps in millimetres: of a grid each with the one that is emphasized.
const GRID = { mm: [[1, 10], [2, 10], [5, 10], [10, 50], [50, 100], [100, 500]],
  in: [[1 / 16, 1 / 4], [1 / 8, 1 / 2], [1 / 4, 1], [1 / 2, 1], [1, 5], [5, 10]].map(it => it.map(one => one * INCH)) };
const STEPS = { mm: [1, 2, 5, 10, 20, 50, 100, 200, 500, 1000, 2000],
  in: [1 / 8, 1 / 4, 1 / 2, 1, 2, 5, 10, 20, 50, 100] };
const PARTS = { mm: [10, 5, 2, 1], in: [8, 4, 2, 1] };

/** A number without zeros behind its point. */
export const shortly = value => String(Math.round(value * 1000) / 1000);

/** A size in dots, in millimetres and in inches. */
export function sizeOf(wide, high, dpmm) {
  const [mm, inch] = [1, INCH].map((unit, n) => [wide, high].map(it => (it / dpmm / unit).toFixed(n + 1)).join(' × '));
  return `${mm} mm, ${inch} in`;
}

/** Where a dot lies, in the unit. */
export const placeIn = (value, dpmm, unit) =>
  (unit === 'in' ? (value / dpmm / INCH).toFixed(3) : (value / dpmm).toFixed(1));

/**
 * The lines of a grid: millimetres from one to the next, and from one that is emphasized to the next.
 * @param {number} pixels  how many pixels a millimetre has
 */
export function gridOf(unit, pixels, ratio) {
  return GRID[unit].find(([it]) => it * pixels >= APART * ratio) ?? GRID[unit][GRID[unit].length - 1];
}

/** A ruler's ticks: pixels from one number to the next and from one tick to the next, and what a number counts. */
export function ticksOf(unit, pixels, ratio) {
  const one = unit === 'in' ? INCH * pixels : pixels;
  const long = STEPS[unit].find(it => it * one >= WRITTEN * ratio) ?? STEPS[unit][STEPS[unit].length - 1];
  const isWhole = it => unit === 'in' || long / it % 1 === 0;
  const parts = PARTS[unit].find(it => long * one / it >= TICK * ratio && isWhole(it)) ?? 1;
  return { step: long * one, minor: long * one / parts, long };
}
