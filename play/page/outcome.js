/* How a run came out, in one sentence. */
const MOST_NAMED = 6;

// How many turns a run had, by what it printed.
const turnsOf = printed => +(/^end (\d+)$/m.exec(printed.slice(printed.lastIndexOf("\nend ") + 1)) || [0, 0])[1];

// How a process ends, as it is printed, and in words of one and of more.
const ENDS = [["done$", "is done", "are done"], ["failed$", "has failed", "have failed"], ["open \\d+$", "is still open", "are still open"]];

// The names of the processes that ended so.
function named(ending, how, one, more) {
  const names = [...ending.matchAll(new RegExp(`^(\\w+) ${how}`, "gm"))].map(([, name]) => name);
  if (!names.length) return [];
  return [`${names.length > MOST_NAMED ? many(names.length, "process", "processes") : listed(names)} ${names.length === 1 ? one : more}`];
}

function endInWords(printed) {
  const ending = printed.slice(printed.lastIndexOf("\nend ") + 1);
  const ends = ENDS.flatMap(end => named(ending, ...end));
  return `After ${many(turnsOf(printed), "turn")}: ${ends.join("; ")}.`;
}

const STATUSES = { 4: "It prints more than this page can hold.", 5: "There is not enough memory for this run." };

function outcomeInWords(told, found) {
  if (told.isStopped) return "Stopped.";
  if (told.fault) return `The engine broke down (${told.fault}); another was started.`;
  if (told.status === 0) return endInWords(textOfBytes(told.out));
  if (found && found.name) return `Refused: ${found.name}${found.line ? ` at line ${found.line} of the ${found.text}` : ` in the ${found.text}`}.`;
  return STATUSES[told.status] || `It ended with status ${told.status}.`;
}

function showOutcome(says, isBad) {
  element("outcome").textContent = says;
  element("outcome").classList.toggle("bad", isBad);
}
