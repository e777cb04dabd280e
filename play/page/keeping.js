/* What the browser keeps for the next time, where it lets a page keep something. */
function kept(what) {
  try { return localStorage.getItem(`rbl.${what}`) || ""; } catch (refused) { return ""; }
}

// Whether it could be kept.
function keep(what, text) {
  try { localStorage.setItem(`rbl.${what}`, text); return true; } catch (refused) { return false; }
}
