// What is typed into a form, which this tab keeps until it is booked or cancelled, so that it is there again once the page was loaded anew.

const PLACE = "desk.typed", MOST_FORMS = 20;

function allTyped() {
  try { return new Map(JSON.parse(sessionStorage.getItem(PLACE))); } catch { return new Map(); }
}
function putTyped(all) {
  try { sessionStorage.setItem(PLACE, JSON.stringify([...all].slice(-MOST_FORMS))); } catch { /* Then it is lost with the page. */ }
}

// The values of a form by the names of its fields, null where nothing is kept.
export const typedIn = (form) => allTyped().get(form) || null;
export function keepTyped(form, values) {
  const all = allTyped();
  all.delete(form);
  putTyped(all.set(form, values));
}
export function forgetTyped(form) {
  const all = allTyped();
  if (all.delete(form)) putTyped(all);
}
