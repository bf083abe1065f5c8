// The help.
export default {
  // The keys.
  "Keys and help": "Tasten und Hilfe",
  "Language": "Sprache",
  "find a lot, a batch, an order or a recall": "ein Los, eine Charge, einen Auftrag oder einen Rückruf suchen",
  "to the button of a batch's next phase": "zum Knopf der nächsten Phase einer Charge",
  "look again": "neu ansehen",
  "this help": "diese Hilfe",
  "close a form, leave the board": "Formular schließen, Tafel verlassen",
  "to the next field of a form; books in the last one": "zum nächsten Feld eines Formulars; im letzten wird gebucht",
  "A scanner works wherever the cursor is, and books nothing: at a batch it opens the form with the scanned lot, in a form it chooses the lot, elsewhere it finds.":
    "Ein Scanner geht, wo immer der Cursor steht, und bucht nichts: bei einer Charge öffnet er das Formular mit dem gescannten Los, in einem Formular wählt er das Los, sonst sucht er.",
  "A booking can't be taken back: book the opposite, or scrap. It counts once, also where its answer is lost and it is sent again. Views look again every 20 seconds.":
    "Eine Buchung lässt sich nicht zurücknehmen: man bucht das Gegenteil oder Ausschuss. Sie zählt einmal, auch wenn ihre Antwort verloren geht und sie erneut gesendet wird. Ansichten werden alle 20 Sekunden neu gelesen.",
  // The words.
  "Words": "Wörter",
  "Orders and recipes": "Aufträge und Rezepte",
  "Draft, Approve, Withdraw": "Entwurf, Genehmigen, Zurückziehen",
  "A new version of a recipe is a draft. Once it is approved, orders of it can be taken in and released. A withdrawn one is for no further release; batches go on.":
    "Eine neue Version eines Rezepts ist ein Entwurf. Ist sie genehmigt, können Aufträge davon übernommen und freigegeben werden. Eine zurückgezogene ist für keine weitere Freigabe; Chargen laufen weiter.",
  "Order, Batch": "Auftrag, Charge",
  "An order says what is wanted by when. Its release makes one batch, which the shift makes.":
    "Ein Auftrag sagt, was bis wann gewünscht ist. Seine Freigabe legt eine Charge an, die die Schicht herstellt.",
  "Open, Released, Finished": "Offen, Freigegeben, Erledigt",
  "An open order waits for its release. A released one has a batch. It is finished once that batch is closed.":
    "Ein offener Auftrag wartet auf seine Freigabe. Ein freigegebener hat eine Charge. Er ist erledigt, sobald diese Charge abgeschlossen ist.",
  "Its due date is over, and it is neither finished nor cancelled.": "Der Termin ist vorbei, und er ist weder erledigt noch storniert.",
  "Consume, Produce": "Verbrauchen, Erzeugen",
  "Consume books what goes into a batch, of the lot that it is taken of. Produce books what comes out, as a new lot.":
    "Verbrauchen bucht, was in eine Charge eingeht, aus dem Los, von dem es genommen ist. Erzeugen bucht, was herauskommt, als neues Los.",
  "Asked, Booked, Left": "Soll, Gebucht, Rest",
  "What the recipe wants at the order's size, what was consumed or produced so far, and what is missing of it.":
    "Was das Rezept bei der Größe des Auftrags verlangt, was bisher verbraucht oder erzeugt ist, und was daran fehlt.",
  "Pause, Hold (of a batch)": "Pausieren, Anhalten",
  "Both interrupt a batch. After a pause it is resumed, after a hold restarted. A hold of a lot is another thing: see below.":
    "Beides unterbricht eine Charge. Nach einer Pause wird sie fortgesetzt, nach dem Anhalten wieder angefahren. Ein Los zu sperren ist etwas anderes: siehe unten.",
  "Stop, Abort": "Stoppen, Abbrechen",
  "Stop ends a batch in order before its time, Abort breaks it off. Both can be reset, and begin anew.":
    "Stoppen beendet eine Charge geordnet vor der Zeit, Abbrechen bricht sie ab. Beide lassen sich zurücksetzen und beginnen neu.",
  "Reset, Attempt": "Zurücksetzen, Durchlauf",
  "A reset batch begins anew from its first phase, as another attempt. What was booked on it stays booked.":
    "Eine zurückgesetzte Charge beginnt neu ab der ersten Phase, als weiterer Durchlauf. Was auf sie gebucht ist, bleibt gebucht.",
  "Finish": "Erreicht",
  "Pausing, stopping and the like take time. Finish says that the batch got there.":
    "Pausieren, Stoppen und dergleichen brauchen Zeit. Erreicht sagt, dass die Charge dort angekommen ist.",
  "Complete, Close": "Fertig, Abschließen",
  "A complete batch has done its work, and still takes bookings. A closed one takes none, and its order is finished.":
    "Eine fertige Charge hat ihre Arbeit getan und nimmt noch Buchungen. Eine abgeschlossene nimmt keine, und ihr Auftrag ist erledigt.",
  "Parameter": "Parameter",
  "A value that the recipe gives for the phase after it, such as a temperature. The desk notes no measured value: book a step with a note.":
    "Ein Wert, den das Rezept für die Phase danach vorgibt, etwa eine Temperatur. Messwerte hält der Leitstand nicht fest: dafür bucht man einen Schritt mit Bemerkung.",
  "Class, Material, Lot, Part": "Klasse, Material, Los, Teil",
  "A class is a group of materials. A lot is an amount of one material that is known by its id. Its parts are where it is: F-1/2 is part 2 of lot F-1.":
    "Eine Klasse ist eine Gruppe von Materialien. Ein Los ist eine Menge eines Materials mit eigener Kennung. Seine Teile sind, wo es liegt: F-1/2 ist Teil 2 von Los F-1.",
  "Free, On hold, Recalled": "Frei, Gesperrt, Zurückgerufen",
  "Free goods may be used. A hold keeps one lot from being consumed, split and merged, a recall also all that came of it.":
    "Freie Ware darf verwendet werden. Eine Sperre hält ein Los davon ab, verbraucht, geteilt und zusammengeführt zu werden, ein Rückruf auch alles, was daraus wurde.",
  "Hold, Recall": "Sperren, Zurückrufen",
  "Hold what may be wrong, and take the hold off once it is known. Recall what is wrong: it also reaches what was made of it, and running batches.":
    "Sperren, was falsch sein könnte, und die Sperre aufheben, sobald es klar ist. Zurückrufen, was falsch ist: das betrifft auch, was daraus gemacht wurde, und laufende Chargen.",
  "Take off, Lift": "Aufheben",
  "A hold is taken off, a recall is lifted. The desk keeps who did it.": "Eine Sperre und ein Rückruf werden aufgehoben. Der Leitstand hält fest, wer es tat.",
  "Move, Split": "Umlagern, Teilen",
  "Move brings an amount to another place: it stays the same lot, as another part; the ledger says divided. Split makes an amount a lot of its own.":
    "Umlagern bringt eine Menge auf einen anderen Platz: sie bleibt dasselbe Los, als weiterer Teil. Teilen macht aus einer Menge ein eigenes Los.",
  "Makes one new lot of parts of several lots of the same material.": "Macht aus Teilen mehrerer Lose desselben Materials ein neues Los.",
  "Books goods out that are spoiled or lost.": "Bucht Ware aus, die verdorben oder verloren ist.",
  "Genealogy, Ledger, Record": "Genealogie, Bewegungen, Protokoll",
  "The genealogy shows what a lot came of and what came of it. The ledger has each booking of a lot, the record all of a batch.":
    "Die Genealogie zeigt, woraus ein Los stammt und was daraus wurde. Die Bewegungen haben jede Buchung eines Loses, das Protokoll alles von einer Charge.",
  "This page": "Diese Seite",
  "Number, Reference": "Nummer, Referenz",
  "Each booking has a number, one after the other. Its reference keeps it from counting twice.":
    "Jede Buchung hat eine Nummer, eine nach der anderen. Ihre Referenz verhindert, dass sie doppelt zählt.",
  "No answer came to a booking, which may have been taken or not. Sent again, it counts once.":
    "Auf eine Buchung kam keine Antwort; vielleicht ist sie gebucht, vielleicht nicht. Erneut gesendet zählt sie einmal.",
  "Orders and batches ask for more of a material than is free and is to be made until then.":
    "Aufträge und Chargen verlangen mehr von einem Material, als frei ist und bis dahin erzeugt wird.",
};
