import assert from "node:assert/strict";
import test from "node:test";

process.env.TZ = "Europe/Berlin";
const { ageInDays, clock, clockOffset, day, dayOf, lengthOfTime, moment, stampWord } = await import("../../page/moments.js");

test("a moment is told in the time of the machine", () => {
  assert.equal(moment(0), "1970-01-01 01:00");
  assert.equal(moment(1_772_323_199, true), "2026-03-01 00:59:59");
  assert.equal(moment(1_774_746_000), "2026-03-29 03:00");
  assert.equal(day(new Date(1_772_323_199_000)), "2026-03-01");
  assert.equal(dayOf(1_772_323_199), "2026-03-01");
  assert.equal(dayOf(null), "");
});

test("a clock is off by what lies outside the time of the request", () => {
  assert.equal(clockOffset(100, 98, 103), 0);
  assert.equal(clockOffset(98, 98, 98), 0);
  assert.equal(clockOffset(90, 98, 103), -8);
  assert.equal(clockOffset(110, 98, 103), 7);
});

test("a length of time is told in the largest unit that is there twice", () => {
  assert.equal(lengthOfTime(61), "1 minute");
  assert.equal(lengthOfTime(7199), "120 minutes");
  assert.equal(lengthOfTime(7200), "2 hours");
  assert.equal(lengthOfTime(365 * 86400), "365 days");
});

test("the clock tells whole seconds, and its word is an id's part", () => {
  assert.equal(clock(), Math.floor(Date.now() / 1000));
  assert.match(stampWord(), /^[0-9A-Z]{6,7}$/);
});

test("an age is counted in days of the calendar", () => {
  const at = (text) => new Date(text).getTime() / 1000;
  assert.equal(ageInDays(at("2027-03-02T00:01:00"), at("2027-03-02T23:59:00")), "today");
  assert.equal(ageInDays(at("2027-03-01T23:59:00"), at("2027-03-02T00:01:00")), "1 day");
  assert.equal(ageInDays(at("2026-12-31T12:00:00"), at("2027-03-31T12:00:00")), "90 days");
  assert.equal(ageInDays(at("2027-03-03T12:00:00"), at("2027-03-02T12:00:00")), "today");
});
