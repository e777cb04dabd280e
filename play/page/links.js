/* A link that holds the program and its schedule, behind the `#`: so it is sent to nobody; and one that names an example. */
const BEGIN = "#text=", EXAMPLE = "#example=";
const MOST_OF_LINK = 8 * MOST_BYTES;

async function linkOf({ program, schedule }) {
  const bytes = new TextEncoder().encode(JSON.stringify([program, schedule]));
  const letters = Array.from(await allBytes(through(bytes, new CompressionStream("deflate-raw"))), byte => String.fromCharCode(byte)).join("");
  return BEGIN + btoa(letters).replace(/\+/g, "-").replace(/\//g, "_").replace(/=+$/, "");
}

// The texts of a link, or nothing where it holds none.
async function textsOfLink(hash) {
  try {
    const bytes = await unpacked(hash.slice(BEGIN.length).replace(/-/g, "+").replace(/_/g, "/"), "deflate-raw", MOST_OF_LINK);
    const [program, schedule, ...more] = JSON.parse(textOfFile(bytes));
    if (typeof program === "string" && typeof schedule === "string" && !more.length) return { program, schedule };
  } catch (fault) { /* it holds no texts */ }
  return null;
}

// Takes what the address holds; false where it holds nothing that can be taken.
async function followAddress() {
  if (location.hash.length < 2) return false;
  const named = location.hash.startsWith(EXAMPLE) && lessons.find(one => EXAMPLE + one.name === location.hash);
  const given = named || (location.hash.startsWith(BEGIN) ? await textsOfLink(location.hash) : null);
  if (given) {
    notice("");
    lesson = null;
    putTexts(given);
    return true;
  }
  notice("The address of this page holds no program: the link is not whole, or it was not made here. The page goes on with another one.");
  return false;
}

// A changed text is no longer that of the address.
function forgetLink() {
  element("linkbox").hidden = true;
  if (location.hash.length < 2) return;
  try { history.replaceState(null, "", location.pathname + location.search); } catch (refused) { /* a browser may refuse it to a file */ }
}

async function showLink() {
  const hash = await linkOf(texts()), text = element("linktext");
  try { history.replaceState(null, "", hash); } catch (refused) { /* then it stands in the box alone */ }
  text.value = location.href.split("#")[0] + hash;
  element("linkbox").hidden = false;
  text.select();
  text.focus();
}

function hideLink() {
  element("linkbox").hidden = true;
  element("link").focus();
}

async function copyLink() {
  const text = element("linktext");
  text.select();
  try { await navigator.clipboard.writeText(text.value); } catch (refused) { document.execCommand("copy"); }
  element("linkcopy").textContent = "Copied";
  await wait(2000);
  element("linkcopy").textContent = "Copy";
}
