// Bookings.
//
// A booking is a command or an order file on its way to the desk, under a reference of its own. It is kept in the browser until the desk has
// answered, and may be sent again for as long: the desk lets it act once.

import { t } from "./texts.js";
import { grouped } from "./amounts.js";
import { clock } from "./moments.js";
import { LOST, plainly } from "./words.js";
import { at, h } from "./elements.js";
import { keep, kept } from "./store.js";
import { hasOperator, isInDoubt, keepName, operatorName } from "./who.js";
import { button, notice } from "./parts.js";
import { desk, request, whyNot } from "./questions.js";
import { show } from "./frame.js";
import { form, say } from "./forms.js";
import { labelOffer } from "./label.js";

const REFERENCE = "ABCDEFGHIJKLMNOPQRSTUVWXYZ234567";
const newReference = () => "WEB-" + Array.from(crypto.getRandomValues(new Uint8Array(20)), (byte) => REFERENCE[byte & 31]).join("");

// This tab, also after it was loaded anew: what another tab sends may be on its way.
const TAB = (() => {
  try {
    const name = sessionStorage.getItem("desk.tab") || newReference();
    sessionStorage.setItem("desk.tab", name);
    return name;
  } catch { return newReference(); }
})();
const OTHERS_WAIT = 60;

export let sending = null;
const unanswered = () => kept("bookings", []);
const isOfAnother = (it) => Boolean(it.desk) && desk.name !== undefined && it.desk !== desk.name;
const isOffered = (it) => it.ref !== sending && !isOfAnother(it) && (it.tab === TAB || clock() - it.since > OTHERS_WAIT || clock() < it.since);
const keepBooking = (booking) => keep("bookings", [...unanswered().filter((it) => it.ref !== booking.ref), booking]);
function forgetBooking(ref) { keep("bookings", unanswered().filter((it) => it.ref !== ref)); drawWaiting(); }

function send(booking) {
  const { at: seconds, by, ref } = booking;
  const post = (path, body, headers) => request(path, { method: "POST", body, headers });
  if (booking.file !== undefined) return post("/v1/orders", booking.file,
    { "Content-Type": "text/csv", "Desk-At": String(seconds), "Desk-By": by, "Desk-Ref": ref });
  return post("/v1/commands", JSON.stringify({ at: seconds, by, ...booking.fields, ref }), { "Content-Type": "application/json" });
}

// Whether an answer says what became of the booking. A fault of the store doesn't, nor does what a proxy answers in the desk's place.
function isDecided({ status, body }) {
  return status === 200 ? Number.isSafeInteger(body.ok)
    : body.name !== undefined || body.csv !== undefined || body.fault === 2 || body.status === status;
}

// Sends a booking; gives the answer, or null where none came. MomentBack says that nothing was booked under the reference, since the desk looks at
// references before it looks at moments: only then is the booking sent anew, with the desk's moment and under the same reference.
async function deliver(booking) {
  sending = booking.ref;
  try {
    for (let tries = 0; ; tries += 1) {
      keepBooking(booking);
      const answer = await send(booking);
      if (!isDecided(answer)) return null;
      if (answer.body.name !== "MomentBack" || tries === 3) { forgetBooking(booking.ref); return answer; }
      await desk.lookAtMoment();
      booking = { ...booking, at: desk.now() };
    }
  } catch { return null; } finally { sending = null; drawWaiting(); }
}

// Has something booked, told in plain words; gives null where all is well, else what is wrong. Of one of several the view isn't drawn anew.
export async function book(what, content, isOneOfMany) {
  if (sending) return t`A booking is under way.`;
  if (unanswered().some((it) => it.tab === TAB && !isOfAnother(it))) return t`An earlier booking has no answer yet. Send it again first: see the top of the page.`;
  const booking = { what, at: desk.now(), by: operatorName(), ref: newReference(), tab: TAB, since: clock(), desk: desk.name, ...content };
  return settle(booking, await deliver(booking), isOneOfMany);
}
async function settle({ what, by, fields }, answer, isOneOfMany) {
  if (!answer) return LOST;
  if (answer.status !== 200) return plainly(answer);
  keepName(by);
  if (isOneOfMany) return null;
  notice("good", t`${what}. Number ${grouped(answer.body.ok)}. By ${by}.`, ...labelOffer(fields || {}));
  await show();
  return null;
}

async function sendAgain(booking) {
  if (sending) return;
  notice("", t`Sending again\u2026`);
  const wrong = await sentAgain(booking);
  if (wrong) notice("bad", wrong === LOST ? t`Still no answer.` : `${booking.what}: ${wrong}`);
}
// What is wrong with a booking that is sent again, or null. Another desk than the one that it was sent to would take it a second time.
async function sentAgain(booking) {
  sending = booking.ref;
  try { await desk.lookAtName(); } catch { return LOST; } finally { sending = null; drawWaiting(); }
  if (isOfAnother(booking)) return t`It was sent to another desk than the one that is served here now. It is kept until that one is back.`;
  return settle(booking, await deliver(booking));
}

// Bookings without an answer stand at the top of the page until they have one.
export function drawWaiting() {
  const told = (it) => h("span", {}, t`No answer came to \u201c${it.what}\u201d. It may have been taken or not. Sent again, it counts once.`);
  const row = (it) => h("div", {}, told(it), button(t`Send again`, () => sendAgain(it), "main"), button(t`Leave it`, () => leaveBooking(it)));
  at("waiting").replaceChildren(...unanswered().filter(isOffered).map(row));
}
function leaveBooking(booking) {
  form(t`Leave \u201c${booking.what}\u201d?`, [say(t`It isn't sent again. Whether the desk took it is seen in the views alone.`)], t`Leave it`,
    () => { forgetBooking(booking.ref); return null; }, { isGrave: true, booksNothing: true });
}

const command = (what, fields) => book(what, { fields });

// Has several things booked, one after the other, up to the first that isn't. `whyNotNext` is asked before each, and gives why it ends there, or null.
// Gives how many were booked, and what is wrong, or null. A reference of its own keeps each from being booked twice, also where its answer is lost: then
// it is offered at the top of the page like any other, and the rest isn't sent.
export async function bookEach(bookings, whyNotNext) {
  let count = 0, wrong = null;
  for (const { what, fields } of bookings) {
    wrong = await whyNotNext(count).catch(whyNot) || await book(what, { fields }, true);
    if (wrong) break;
    count += 1;
  }
  if (wrong !== LOST) await show();
  return { count, wrong };
}

// Books what needs no form, but for the operator where none is named, or where it may be another one by now.
export async function bookAtOnce(what, content, label) {
  if (!hasOperator() || isInDoubt()) return form(what, [], label, () => book(what, content));
  const wrong = await book(what, content);
  if (wrong && wrong !== LOST) notice("bad", wrong);
}
export const act = (what, fields) => bookAtOnce(what, { fields }, t`Book it`);

// A form that books: `take` has its command told, and gives what is wrong with the values, or null. The same is done without booking as the form is
// filled, so that the desk is asked what would become of the command.
export function bookingForm(title, fields, label, take, more) {
  const contentOf = (v) => {
    let content = null;
    take(v, (what, told) => { content = told; return LOST; });
    return content;
  };
  form(title, fields, label, (v) => take(v, command), { ...more, contentOf });
}
