/* What this page cannot do without, said in words where a browser lacks it. It is written for browsers of any age. */
function tellLack(why) {
  var notice = document.getElementById("notice");
  notice.hidden = false;
  notice.appendChild(document.createTextNode(why + ", so it can not run the engine. Chrome or Edge 97, Firefox 113, Safari 16.4 and later can."));
  document.getElementById("outcome").firstChild.nodeValue = "Nothing can be run here.";
  document.documentElement.setAttribute("data-ready", "no");
}

var LACKS = ["WebAssembly", "DecompressionStream", "CompressionStream", "Worker", "Promise", "TextDecoder"].filter(function (name) {
  return typeof window[name] === "undefined";
});
if (LACKS.length) tellLack("This browser has no " + LACKS.join(" and no "));
