/* The scripts of the page are packed, as all that is large: they are put in here, and the page's policy knows them. */
function addScript(text) {
  const script = document.createElement("script");
  script.textContent = text;
  document.head.append(script);
}

const textPacked = async id => new TextDecoder().decode(await unpacked(document.getElementById(id).textContent));

if (!LACKS.length) {
  textPacked("page").then(addScript).then(() => {
    if (document.documentElement.dataset.began !== "yes") tellLack("This browser does not read the page's scripts");
  });
}
