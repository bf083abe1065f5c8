// Moments and days, in the time of this machine.

import { t } from "./texts.js";
import { counted } from "./amounts.js";

const two = (n) => String(n).padStart(2, "0");
export const clock = () => Math.floor(Date.now() / 1000);

// A day, and a moment of the desk (seconds since 1970 in UTC) and its day, in the time of this machine. A moment that isn't known has no day.
export const day = (date) => `${date.getFullYear()}-${two(date.getMonth() + 1)}-${two(date.getDate())}`;
export const dayOf = (seconds) => (seconds === null ? "" : day(new Date(seconds * 1000)));
function timeOf(seconds, isExact) {
  const date = new Date(seconds * 1000);
  return `${two(date.getHours())}:${two(date.getMinutes())}${isExact ? ":" + two(date.getSeconds()) : ""}`;
}

// A day such as 2027-03-01 as it is read, with its year and without it; a moment as it is read, and as it is written into files.
const parts = (text) => text.split("-");
export function dated(text) {
  const [year, month, date] = parts(text);
  return date ? t`${year}-${month}-${date}` : text;
}
export function shortDay(text) {
  const [, month, date] = parts(text);
  return t`${month}-${date}`;
}
export const moment = (seconds, isExact) => `${dated(dayOf(seconds))} ${timeOf(seconds, isExact)}`;
export const stamp = (seconds) => `${dayOf(seconds)} ${timeOf(seconds, true)}`;

// By how many seconds the clock of another machine is ahead of this one's, which was between two moments as that one told its moment.
export const clockOffset = (told, first, last) => (told < first ? told - first : told > last ? told - last : 0);

// A length of time in words, at least a minute.
const HOUR = 3600, DAY = 86400;
export function lengthOfTime(seconds) {
  const countOf = (size) => Math.max(1, Math.round(seconds / size));
  return seconds >= 2 * DAY ? counted(countOf(DAY), "day", "days") : seconds >= 2 * HOUR ? counted(countOf(HOUR), "hour", "hours")
    : counted(countOf(60), "minute", "minutes");
}

// How many days lie between the day of a moment and that of another one, in words.
export function ageInDays(seconds, now) {
  const noon = (at) => new Date(at * 1000).setHours(12, 0, 0, 0), count = Math.max(0, Math.round((noon(now) - noon(seconds)) / 86400e3));
  return count === 0 ? t`today` : counted(count, "day", "days");
}

// A word of the clock, by which the ids of holds and recalls differ.
export const stampWord = () => clock().toString(36).toUpperCase();
