/* The engine's thread: takes the module, and then one question after another. A call that traps leaves its memory half written, and one that
   took much memory never gives it back: so the next one has an instance of its own. */
const LARGE = 1 << 26;
let engineModule = null, engine = null, last = Promise.resolve();

// The module is compiled while it is unpacked.
function compiled(packed) {
  const stream = through(bytesOfBase64(packed), new DecompressionStream("gzip"));
  return WebAssembly.compileStreaming(new Response(stream, { headers: { "Content-Type": "application/wasm" } }));
}

async function begin({ packed, module }) {
  engineModule = module || await compiled(packed);
  if (packed) postMessage({ module: engineModule, made: Engine.made(engineModule) });
}

function answer({ program, words, texts }) {
  engine = engine || new Engine(new WebAssembly.Instance(engineModule, {}));
  const told = engine.ask(program, words, texts);
  if (engine.memory > LARGE) engine = null;
  postMessage(told, [told.out.buffer, told.reason.buffer]);
}

onmessage = ({ data }) => {
  last = last.then(() => data.words ? answer(data) : begin(data)).catch(fault => {
    engine = null;
    postMessage({ fault: String(fault) });
  });
};
