/* The theme: the chosen one, or that of the system. It is there before anything is seen. */
const theme = { chosen: "", tell() {} };
const systemTheme = () => matchMedia("(prefers-color-scheme: dark)").matches ? "dark" : "light";

function setTheme(chosen) {
  theme.chosen = PALETTES[chosen] ? chosen : "";
  document.documentElement.dataset.theme = theme.chosen || systemTheme();
  theme.tell();
}

addColours();
setTheme(kept("theme"));
matchMedia("(prefers-color-scheme: dark)").addEventListener("change", () => setTheme(theme.chosen));
