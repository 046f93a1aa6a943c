// Limits of the page.

export const mostLines = 5000;      // trace lines or events that are shown
export const mostCalls = 20000;     // events, at most, whose effects are requested
export const longestLink = 100000;  // characters of an address
