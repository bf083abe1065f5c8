// What is done with a part of a lot: it is moved, split or scrapped.

import { t } from "./texts.js";
import { grouped } from "./amounts.js";
import { amountField, lotField, newLotField, noteField, noted, placeField, say, textField } from "./forms.js";
import { bookingForm } from "./book.js";

// The field of the lot that goods are taken of: at first the part whose button was pressed.
const fromField = ({ def, unit }, part, mayBeBarred) => lotField({ def, unit, part, parts: [part], mayBeBarred });
export function scrap(part, known) {
  bookingForm(t`Scrap ${known.def}`, [fromField(known, part, true), amountField(known.unit), noteField(t`Why`)], t`Scrap`,
    ({ from: { lot, sub }, amount, note }, tell) => tell(t`${grouped(amount)} ${known.unit} of ${lot} scrapped`,
      noted({ do: "scrap", lot, sub, amount }, note)), { isGrave: true });
}
// All of a part, or as much as is typed, goes to another place as another part of the same lot: the ledger says divided.
export function moveGoods(part, known) {
  let offered = part.stock;
  const change = (inputs, it) => { if (Number(inputs.amount.value) === offered) inputs.amount.value = offered = it.stock; };
  bookingForm(t`Move ${known.def}`, [{ ...fromField(known, part, true), change }, say(t`What is moved becomes another part of the same lot.`),
    amountField(known.unit, part.stock), textField("place", t`New place`, { required: true }), noteField()], t`Move`,
  ({ from: { lot, sub }, amount, place, note }, tell) => tell(t`${grouped(amount)} ${known.unit} of ${lot} brought to ${place}`,
    noted({ do: "divide", lot, sub, amount, place }, note)));
}
export function split(part, known) {
  bookingForm(t`Split ${known.def}`, [fromField(known, part), say(t`The amount becomes a lot of its own.`), amountField(known.unit),
    newLotField("new", t`New lot`), placeField(), noteField()], t`Split`,
    ({ from: { lot, sub }, amount, place, note, ...v }, tell) => tell(t`${grouped(amount)} ${known.unit} of ${lot} split off as ${v.new}`,
      noted({ do: "split", lot, sub, amount, new: v.new, place }, note)));
}
