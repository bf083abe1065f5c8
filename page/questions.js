// What the desk is asked, one request after the other: the desk serves one at a time.

import { t } from "./texts.js";
import { clock, clockOffset, day } from "./moments.js";
import { idBefore } from "./ids.js";
import { PAGE, readPage } from "./cursors.js";
import { withPath } from "./recipes.js";
import { readRecord } from "./records.js";
import { plainly } from "./words.js";

export class Refusal extends Error {
  constructor(answer) { super(plainly(answer)); this.answer = answer; }
}
export const whyNot = (error) => (error instanceof Refusal ? error.message : t`The desk doesn't answer.`);

const SECONDS = 40;
let tail = Promise.resolve();

// Has a request answered: its status, and its body as JSON or as text. Fails where no answer comes, or half of one.
export function request(path, options) {
  const next = tail.then(async () => {
    const first = clock();
    const reply = await fetch(path, { cache: "no-store", redirect: "error", signal: AbortSignal.timeout(SECONDS * 1000), ...options });
    const told = Date.parse(reply.headers.get("Date") || "") / 1000;
    if (!Number.isNaN(told)) desk.offset = clockOffset(told, first, clock());
    const text = await reply.text();
    const isJson = (reply.headers.get("Content-Type") || "").startsWith("application/json");
    return { status: reply.status, isJson, body: isJson ? JSON.parse(text) : text };
  });
  tail = next.catch(() => {});
  return next;
}

// The body of an answer of 200. Anything else of the desk is a refusal, and what isn't of the desk is no answer.
async function askedAnew(path, isText) {
  const answer = await request(path);
  if (answer.status === 200 && answer.isJson !== Boolean(isText)) return answer.body;
  if (!answer.isJson) throw new Error(`an answer of status ${answer.status} that isn't the desk's`);
  throw new Refusal(answer);
}

// The same, once for as long as nothing is booked: what the desk answers changes with its bookings alone.
const answers = new Map();
async function asked(path, isText) {
  if (!answers.has(path)) answers.set(path, await askedAnew(path, isText));
  return answers.get(path);
}

// The same, or null where it isn't there.
async function found(path) {
  try { return await asked(path); } catch (error) { if (error instanceof Refusal && error.answer.status === 404) return null; throw error; }
}

// What no booking changes any more, such as the lines of a closed batch: it is asked once. What depends on something else, such as a ledger on the stock of
// its lot, is asked anew where that is another one. At most so many of them are kept, as a page may be open for weeks.
const lasting = new Map(), MOST_LASTING = 2000;
async function askedOnce(name, ask, of = null) {
  const known = lasting.get(name);
  if (known && known.of === of) return known.value;
  const value = await ask();
  if (lasting.size >= MOST_LASTING) lasting.clear();
  lasting.set(name, { of, value });
  return value;
}

// The items of a list, page by page until there are as many as are wanted, those after a cursor where one is given; `more` of them says whether there are
// others.
async function list(path, wanted, cursor) {
  const all = [];
  let behind = cursor ? "/" + cursor : "";
  do {
    const { items, last } = readPage(path, await asked(`/v1/lists/${path}${behind}`));
    all.push(...items);
    all.more = last !== null;
    behind = "/" + last;
  } while (all.more && all.length < wanted);
  return all;
}

// How many items of a list are wanted: a page, and more once somebody asks for them.
export const wantedItems = new Map();
export const want = (name) => wantedItems.get(name) || PAGE;

export const desk = {
  // The number of its bookings and its moment, when it was last looked at.
  seq: null,
  moment: 0,

  // By what it is known: the reference of its first command that had one, null where none had. Desks that are served in turn at one address share
  // what the browser keeps. `desk-named` is told once it is read.
  name: undefined,

  // Looks how far it is, and says whether that has changed.
  async look() {
    const { seq } = await askedAnew("/v1/desk");
    if (seq === this.seq) return false;
    answers.clear();
    await this.lookAtMoment();
    if (!this.name || seq < this.seq) await this.lookAtName();
    this.seq = seq;
    return true;
  },
  async lookAtName() {
    const [first] = (await askedAnew("/v1/lists/commands")).commands, before = this.name;
    this.name = first ? first.ref : null;
    if (this.name !== before) lasting.clear();
    dispatchEvent(new Event("desk-named"));
  },
  async lookAtMoment() { this.moment = (await askedAnew("/v1/moment")).at; },

  // By how many seconds the clock of its machine is ahead of this one's, and the time by it.
  offset: 0,
  time() { return clock() + this.offset; },

  today() { return day(new Date(this.time() * 1000)); },

  // The moment of a booking: the machine's time, or the desk's moment where that is later.
  now() { return Math.max(this.time(), this.moment); },

  // The first ids of each kind of thing that begin with this one.
  find: (id) => asked("/v1/find/" + id),

  order: (id) => asked("/v1/orders/" + id),
  lot: (id) => asked("/v1/lots/" + id),
  foundLot: (id) => found("/v1/lots/" + id),
  foundBatch: (id) => found("/v1/batches/" + id),
  foundOrder: (id) => found("/v1/orders/" + id),

  // The name that it is served under, and the language of its page, each null where none is said; also where it doesn't answer.
  async presented() {
    try { return await askedAnew("/v1/health"); } catch { return { name: null, language: null }; }
  },

  // The operator whom a login names, null where the desk looks at no login.
  loggedIn: async () => (await found("/v1/operator"))?.operator ?? null,

  definition: (id) => found("/v1/definitions/" + id),
  recipe: (id, version) => asked(`/v1/recipes/${id}/${version}`),
  // The same with the lines alone that matter: those of a version never change.
  recipeOnce: (id, version) => askedOnce(`recipe ${id} ${version}`, () => desk.recipe(id, version)),
  foundRecipe: (id, version) => found(`/v1/recipes/${id}/${version}`),

  // What a recall reaches; null where it isn't there.
  recall: (id) => found("/v1/recalls/" + id),

  // A batch, with the lines of its control recipe, which have what was booked; and its record.
  async batch(id) {
    const batch = await asked("/v1/batches/" + id), lines = await this.batchLines(id);
    return { ...batch, lines: lines.map(withPath) };
  },
  async batchLines(id) { return (await asked(`/v1/batches/${id}/lines`)).lines; },
  // Those lines as they are at this moment, also where nothing is known to have been booked.
  async linesNow(id) { return (await askedAnew(`/v1/batches/${id}/lines`)).lines; },
  // The lines of a finished order's batch, and the batch; what was booked on it stays as it is. And the ledger of a lot that has so much stock: each booking
  // that changes its stock makes that less.
  finishedBatch: (order) => askedOnce(`finished ${order}`, async () => {
    const { batch } = await asked("/v1/orders/" + order);
    return { batch, lines: await desk.batchLines(batch) };
  }),
  // Every command that had a reference and names an id. A page of it is of a hundred commands, few or none of which may name the id.
  async history(id) {
    const all = [];
    for (let page = await asked("/v1/lists/history/" + id); ; page = await asked(`/v1/lists/history/${id}/${page.last}`)) {
      all.push(...page.commands);
      if (!page.more) return all;
    }
  },
  ledger: (lot, stock, wanted) => askedOnce(`ledger ${lot}`, () => list("movements/" + lot, wanted), stock),
  async record(id) { return readRecord(await asked(`/v1/batches/${id}/record`, true)); },

  // The lots that have stock of a lot's or a batch's goods, and the genealogy on either side of it. `kind` is lots or batches.
  async stands(kind, id) { return (await asked(`/v1/${kind}/${id}/stands`)).lots; },
  // What entered each lot of a lot's or a batch's goods, what left it, and what is there; and what an order needs.
  async balance(kind, id) { return (await asked(`/v1/${kind}/${id}/balance`)).lots; },
  async needs(order) { return (await asked(`/v1/orders/${order}/needs`)).needs; },
  forward: (kind, id) => asked(`/v1/${kind}/${id}/forward_edges`),
  back: (kind, id) => asked(`/v1/${kind}/${id}/back_edges`),

  // What the genealogy has of a lot: its unit, and whether a recall reaches it.
  async lotNode(lot) { return (await this.back("lots", lot)).nodes.find((it) => it.lot === lot); },

  orders: (state, wanted) => list("orders_by_due/" + state, wanted),
  ordersSince: (state, since, wanted) => list("orders_by_due/" + state, wanted, `${since}.A`),
  batches: (wanted) => list("batches", wanted),
  closedBatches: (wanted) => list("closed_batches", wanted),
  holds: (lot, wanted) => list("holds/" + lot, wanted),
  // The commands among the last so many that had references, as those of this page have, the last first.
  async lastCommands(count) {
    const behind = this.seq > count ? "/" + (this.seq - count) : "";
    return [...(await asked("/v1/lists/commands" + behind)).commands].reverse();
  },
  commands: (wanted) => list("commands", wanted),
  allHolds: (wanted) => list("all_holds", wanted),
  recalls: (wanted) => list("recalls", wanted),
  liftedRecalls: (wanted) => list("lifted_recalls", wanted),
  recipes: (state, wanted) => list("recipes/" + state, wanted),
  movements: (lot, wanted) => list("movements/" + lot, wanted),

  // The lots of a material that have stock, the oldest first, each with the booking that made it; and the materials of a class, each with what there is
  // of it.
  stock: (def, wanted) => list("stock/" + def, wanted),
  stocks: (group, wanted) => list("stocks/" + group, wanted),

  // A material with what there is of it, or null. Those of one class share its first page.
  async stockOf(def) {
    const known = await this.definition(def), isMeant = (it) => it.def === def;
    if (!known) return null;
    const first = (await this.stocks(known.class, PAGE)).find(isMeant);
    return first || (await list(`stocks/${known.class}`, 1, idBefore(def))).find(isMeant) || null;
  },

  // The materials of each class with their names, of a class with more than a page of them its first page.
  async named() {
    const all = [];
    for (const { class: id } of await list("classes", PAGE)) all.push(...await list("definitions/" + id, PAGE));
    return all;
  },

  // All materials, each with its class and what there is of it.
  async materials() {
    const all = [];
    for (const { class: id } of await list("classes", Infinity)) all.push(...(await this.stocks(id, Infinity)).map((it) => ({ class: id, ...it })));
    return all;
  },

  // The classes, each with its materials.
  async classes() {
    const classes = await list("classes", want("classes"));
    const known = [];
    for (const it of classes) {
      known.push({ id: it.class, name: it.name, stocks: await this.stocks(it.class, want("stocks " + it.class)) });
    }
    known.more = classes.more;
    return known;
  },
};
