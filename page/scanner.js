// The scanner: keys of the page that are a scan, wherever the cursor is, and keys of a person that are shortcuts.

import { GAP, NO_KEYS, isAgain, pressed } from "./scans.js";

// A person's shortcut counts once so many milliseconds brought no further key.
const ALONE = 2 * GAP;

let keys = NO_KEYS;
let cursor = null;
let lastScan = { code: null, time: 0 };
let shortcut = null;
let taking = Promise.resolve();

// What a field holds, so that what a scanner types into it can be taken out again.
const stateOf = (it) => (it && it.matches("input:not([type=file]), select, textarea")
  ? { it, value: it.value, from: it.selectionStart, to: it.selectionEnd } : { it });
function restore({ it, value, from, to }) {
  if (value === undefined || it.value === value) return;
  it.value = value;
  if (from !== null && it.setSelectionRange) it.setSelectionRange(from, to);
  it.dispatchEvent(new Event("input", { bubbles: true }));
}

// Ends the wait of a shortcut, which counts where the next key came too late for a scan.
function endShortcut(isPerson) {
  if (!shortcut) return;
  clearTimeout(shortcut.timer);
  const { act } = shortcut;
  shortcut = null;
  if (isPerson) act();
}
export function onceAlone(act) {
  if (keys.isFirst) shortcut = { act, timer: setTimeout(() => endShortcut(true), ALONE) };
}

// Has each scan taken, one after the other: its code, whether it is the same once more, and the element with the cursor. What was typed is taken
// out again, and the Enter presses nothing.
export function listenToScans(take) {
  addEventListener("keydown", (event) => {
    if (event.repeat || event.isComposing || event.ctrlKey || event.altKey || event.metaKey) { keys = NO_KEYS; return; }
    keys = pressed(keys, event.key, event.timeStamp);
    if (event.key !== "Shift") endShortcut(keys.isFirst || (event.key === "Enter" && !keys.code));
    if (keys.isFirst) cursor = stateOf(document.activeElement);
    if (event.key === " " && !keys.isFirst && keys.text && event.target instanceof Element && event.target.closest("button, a, input[type=checkbox]")) {
      event.preventDefault();
    }
    if (!keys.code) return;
    const { code } = keys, from = cursor, again = isAgain(lastScan, code, event.timeStamp);
    event.preventDefault();
    event.stopImmediatePropagation();
    restore(from);
    lastScan = { code, time: event.timeStamp };
    taking = taking.then(() => take(code, again, from.it)).catch(() => {});
  }, true);
}

// A short, low tone: what was scanned isn't taken. A browser without sound shows it in red all the same.
let sound = null;
export function tone() {
  try {
    sound ||= new AudioContext();
    const beep = sound.createOscillator(), loudness = sound.createGain();
    Object.assign(beep, { type: "square" });
    beep.frequency.value = 220;
    loudness.gain.value = 0.1;
    beep.connect(loudness).connect(sound.destination);
    sound.resume();
    beep.start();
    beep.stop(sound.currentTime + 0.25);
  } catch { /* There is no sound. */ }
}
