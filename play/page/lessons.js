/* The programs to begin with, each with the question of its lesson. */
const FIRST = "step4";
const OWN = "";
let lessons = [], lesson = null;

const isLesson = ({ program, schedule }, one) => one.program === program && one.schedule === schedule;

function makeLessons(given) {
  lessons = given;
  const select = element("lesson"), groups = new Map();
  select.append(made("option", { value: OWN }));
  for (const one of lessons) {
    if (!groups.has(one.group)) select.append(groups.set(one.group, made("optgroup", { label: one.group })).get(one.group));
    groups.get(one.group).append(made("option", { value: one.name }, one.title === one.name ? one.name : `${one.title} (${one.name})`));
  }
  select.addEventListener("change", () => chooseLesson(select.value));
}

function chooseLesson(name) {
  const one = lessons.find(other => other.name === name);
  if (!one) return;
  lesson = one;
  forgetLink();
  notice("");
  putTexts(one);
  runNow();
}

// The list says which lesson stands there; a changed one is one's own.
function showWhichLesson() {
  const given = texts(), own = element("lesson").options[0];
  lesson = lessons.find(one => isLesson(given, one)) || lesson;
  element("lesson").value = lesson && isLesson(given, lesson) ? lesson.name : OWN;
  own.textContent = lesson ? `your own, after ${lesson.name}` : "your own";
  own.hidden = element("lesson").value !== OWN;
  element("question").textContent = lesson ? lesson.question : "";
  element("question").hidden = !lesson;
}
