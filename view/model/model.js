/* What the model answers: it reads a trace, and tells what stood at a turn. It knows nothing of the page. */
const Model = {
  History, Spans, countUpTo, lastUpTo, firstBehind, readTrace,
  isUndone, openAt, survivors, recordOf, record, printed, countPrinted, endingAt, valuesAt, insideAt, atLineAt, takenForGood,
  waitOf, waitsAt, ringOf, standstillAt, pastOf, changesOf, turnsOfLine, putBackBetween,
  turnsWhere, turnsFound, kindsOf, countsOf, sharesOf, spansOf, partingsOf,
};
