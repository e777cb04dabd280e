/* Texts and their bytes: the engine takes UTF-8, and counts columns in bytes. */
const MOST_BYTES = 1048576;
const textOfBytes = bytes => new TextDecoder().decode(bytes);

// The text of a file, as it is, its byte order mark too; nothing where it is not UTF-8.
function textOfFile(bytes) {
  try { return new TextDecoder("utf-8", { fatal: true, ignoreBOM: true }).decode(bytes); } catch (fault) { return null; }
}

// The place in a line of its column, which counts bytes from 1.
function placeOfColumn(line, column) {
  const before = new TextEncoder().encode(line).subarray(0, column - 1);
  return new TextDecoder("utf-8", { ignoreBOM: true }).decode(before).length;
}
