/* Colours. Shape tells every distinction too; the hues are blue, orange and green as colour-blind people tell them apart,
    and differ in lightness. */
const PALETTES = {
  light: {
    back: "#ffffff", panel: "#f5f6f8", ink: "#171b21", soft: "#565e69", faint: "#c6ccd4", line: "#dde1e7", grey: "#7a828c", dead: "#a7aeb7",
    took: "#0a6cad", bad: "#bf3d06", good: "#00593f", point: "#6a0f66", message: "#2b2f36", amber: "#875800",
    field0: "#dcedfa", field1: "#fdecc9", field2: "#d9f1e6", gone0: "#ebedf0", gone1: "#dde0e5", gone2: "#d0d4da", changed: "#fff2b8",
    chosen: "#ffdf85",
  },
  dark: {
    back: "#12161b", panel: "#1a2027", ink: "#e9edf2", soft: "#a6b0bc", faint: "#414a56", line: "#2b333d", grey: "#8c96a3", dead: "#616b77",
    took: "#4ba3e6", bad: "#ff8c52", good: "#37d1a2", point: "#f3bcef", message: "#f1f1ed", amber: "#efbf49",
    field0: "#16324a", field1: "#40321a", field2: "#143a30", gone0: "#20262d", gone1: "#2c343d", gone2: "#38424d", changed: "#4a3f12",
    chosen: "#66561a",
  },
};

// Where the reader's system sets the colours, they are those of its names.
const SYSTEM_COLOURS = {
  back: "Canvas", panel: "Canvas", ink: "CanvasText", soft: "CanvasText", faint: "GrayText", line: "GrayText", grey: "GrayText", dead: "GrayText",
  took: "CanvasText", bad: "Highlight", good: "CanvasText", point: "CanvasText", message: "CanvasText", amber: "Highlight",
  field0: "Canvas", field1: "Canvas", field2: "Canvas", gone0: "Canvas", gone1: "Canvas", gone2: "Canvas", changed: "Canvas", chosen: "Canvas",
};

const coloursOf = palette => Object.entries(palette).map(([name, colour]) => `--${name}:${colour}`).join(";");

// Puts a style into the page.
function addStyle(text) {
  const style = document.createElement("style");
  style.textContent = text;
  document.head.appendChild(style);
}

// The colours of both themes, of the system and of paper: put into the page, which has a theme.
function addColours() {
  const colours = Object.entries(PALETTES).map(([theme, palette]) => `[data-theme=${theme}]{${coloursOf(palette)}}`);
  const forced = `@media (forced-colors:active){html[data-theme]{${coloursOf(SYSTEM_COLOURS)}}}`;
  addStyle([...colours, forced, `@media print{html[data-theme]{${coloursOf(PALETTES.light)}}}`].join("\n"));
}
