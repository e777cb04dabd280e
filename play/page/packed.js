/* Bytes that are packed: gzip or deflate, and base64 around it. */
function bytesOfBase64(text) {
  if (Uint8Array.fromBase64) return Uint8Array.fromBase64(text);
  const letters = atob(text), bytes = new Uint8Array(letters.length);
  for (let at = 0; at < bytes.length; at++) bytes[at] = letters.charCodeAt(at);
  return bytes;
}

// All bytes of a stream; more than `most` of them are an error.
async function allBytes(stream, most = Infinity) {
  const pieces = [], reader = stream.getReader();
  let length = 0;
  for (let { done, value } = await reader.read(); !done; { done, value } = await reader.read()) {
    pieces.push(value);
    length += value.length;
    if (length > most) { reader.cancel(); throw new RangeError("too long"); }
  }
  const bytes = new Uint8Array(length);
  pieces.reduce((at, piece) => { bytes.set(piece, at); return at + piece.length; }, 0);
  return bytes;
}

const through = (bytes, change) => new Blob([bytes]).stream().pipeThrough(change);
const unpacked = (text, form = "gzip", most = Infinity) => allBytes(through(bytesOfBase64(text), new DecompressionStream(form)), most);
