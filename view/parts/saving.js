/* The picture as a file. */
const savedWidth = () => typeof state.width === "number" && state.width >= TINY ? state.width : Math.max(12, Math.min(24, 1300 / Math.max(1, LAST)));
const savedPicture = () => `<?xml version="1.0" encoding="UTF-8"?>\n${pictureFile(Math.min(state.turn, run.end), savedWidth(), 0, 0)}`;

function save() {
  const link = document.createElement("a");
  link.href = URL.createObjectURL(new Blob([savedPicture()], { type: "image/svg+xml" }));
  link.download = `${TITLE}${state.survivors ? ".survivors" : ""}.svg`;
  link.click();
  setTimeout(() => URL.revokeObjectURL(link.href), 1000);
}
