// The lists of the desk: the member of a page that has its items, and the cursor of an item, behind which the list goes on.
const LISTS = {
  orders_by_due: ["orders", (it) => `${it.due}.${it.order}`],
  batches: ["batches", (it) => it.batch],
  closed_batches: ["batches", (it) => it.batch],
  stock: ["lots", (it) => `${it.seq ?? 0}.${it.lot}`],
  stocks: ["stocks", (it) => it.def],
  holds: ["holds", (it) => it.hold],
  all_holds: ["holds", (it) => `${it.lot}.${it.hold}`],
  recalls: ["recalls", (it) => it.recall],
  lifted_recalls: ["recalls", (it) => it.recall],
  classes: ["classes", (it) => it.class],
  definitions: ["definitions", (it) => it.def],
  recipes: ["recipes", (it) => `${it.recipe}.${it.version}`],
  commands: ["commands", (it) => it.seq],
  movements: ["movements", (it) => `${it.seq}.${it.line}`],
};

// The items of a page of the list at this path, and the cursor behind them, null where there is none.
export const PAGE = 100;
export function readPage(path, page) {
  const [member, cursor] = LISTS[path.split("/")[0]], items = page[member];
  return { items, last: page.more && items.length ? cursor(items.at(-1)) : null };
}
