// Where the site is: in the folder above this file's. Where the site is one file, web/single.js puts another module in its place.

/** Whether all files of the site are in its page. */
export const isOneFile = false;

/** The address of one of the site's files; of the site itself, for the empty path. */
export const addressOf = path => new URL(`../${path}`, import.meta.url);
