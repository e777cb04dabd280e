/* Reads a text word by word, without cutting it into lines first: of a long trace that takes the most time. */
const BLANK = 32, LF = 10, ZERO = 48;

class Scanner {
  constructor(text) { Object.assign(this, { text, at: 0 }); }
  get isMore() { return this.at < this.text.length; }
  // Whether the line has no more words.
  get isAtEnd() { return this.at >= this.text.length || this.text.charCodeAt(this.at) === LF; }
  // Behind the word that is next, and the blank behind it.
  skip() {
    const { text } = this;
    let at = this.at, code = text.charCodeAt(at);
    while (code !== BLANK && code !== LF && at < text.length) code = text.charCodeAt(++at);
    this.at = code === BLANK ? at + 1 : at;
    return at;
  }
  word() {
    const from = this.at, to = this.skip();
    return this.text.slice(from, to);
  }
  // Whether the next word is this one, which then is taken.
  takes(word) {
    const end = this.at + word.length, code = this.text.charCodeAt(end);
    if ((code !== BLANK && code !== LF) || !this.text.startsWith(word, this.at)) return false;
    this.at = code === BLANK ? end + 1 : end;
    return true;
  }
  // A number without a sign; a word that is none is skipped, and NaN.
  number() {
    const { text } = this;
    let at = this.at, value = 0, code = text.charCodeAt(at);
    if (!(code >= ZERO && code < ZERO + 10)) { this.skip(); return NaN; }
    for (; code >= ZERO && code < ZERO + 10; code = text.charCodeAt(++at)) value = value * 10 + code - ZERO;
    this.at = code === BLANK ? at + 1 : at;
    return value;
  }
  // The number behind a word that names it.
  named() {
    this.skip();
    return this.number();
  }
  // All that is left of the line, without its end.
  rest() {
    const end = this.text.indexOf("\n", this.at), to = end < 0 ? this.text.length : end, from = this.at;
    this.at = to;
    return this.text.slice(from, to);
  }
  // To the next line.
  nextLine() {
    const end = this.text.indexOf("\n", this.at);
    this.at = end < 0 ? this.text.length : end + 1;
  }
}
