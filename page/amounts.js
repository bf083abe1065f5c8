// Amounts and counts, as they are read.

import { t } from "./texts.js";

export const grouped = (n) => String(n).replace(/\B(?=(\d{3})+$)/g, "\u202f");
export const counted = (n, one, many) => `${grouped(n)} ${t(n === 1 ? one : many)}`;

// A number that has decimals, with the mark that the language has before them; and a number with so many decimals.
export const marked = (text) => text.replace(".", t(".^decimal"));
export const decimal = (n, places) => marked(n.toFixed(places));
export const capital = (word) => word[0].toUpperCase() + word.slice(1);

// By how much what is booked of a line is above what was asked, once a further amount is booked.
export const excess = ({ asked, booked }, amount = 0) => Math.max(0, booked + amount - asked);

// What is to be confirmed before an amount of a line is booked that makes it more than was asked, or null; `before` is what was booked of it when the
// form was opened.
export function doubtOf(line, amount, before) {
  if (!excess(line, amount)) return null;
  const { asked, booked, unit } = line, told = (n) => `${grouped(n)} ${unit}`, all = booked + amount, times = Math.floor(all / asked);
  const meanwhile = booked > before ? t`Since the form was opened, ${told(booked - before)} was booked. ` : "";
  return `${meanwhile}${t`Asked ${told(asked)}, booked ${told(booked)}: this makes ${told(all)}`}${times > 1 ? t`, ${grouped(times)} times what was asked` : ""}.`;
}
