/** The address of the package's folder, which ends in a slash. */
export const here: string;
