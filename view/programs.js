/* Random programs with their schedules, the same for the same number: for the tests. Every one of them is accepted. */
"use strict";

// Numbers that look random: a small generator by Marsaglia.
function numbers(seed) {
  let state = (seed * 2654435761 + 88172645) >>> 0 || 1;
  return below => {
    state ^= state << 13; state >>>= 0;
    state ^= state >>> 17;
    state ^= state << 5; state >>>= 0;
    return state % below;
  };
}

// The conversations of a program: each with its members, its parent, and its number of alternates.
function someConversations(random, processes) {
  const conversations = [];
  const add = (members, parent) => conversations.push({ name: "C" + conversations.length, members, parent, alternates: 1 + random(3) });
  for (let k = random(3); k > 0 && processes > 1; k--) {
    add(someOf(random, [...Array(processes).keys()]), -1);
    const outer = conversations.length - 1;
    for (let n = random(3); n > 0; n--) add(someOf(random, conversations[outer].members), outer);
  }
  return conversations;
}

// Two members of a list at least, in its order.
function someOf(random, list) {
  const wanted = 2 + random(list.length - 1), found = list.slice();
  while (found.length > wanted) found.splice(random(found.length), 1);
  return found;
}

function someChannels(random, processes) {
  const channels = [];
  for (let k = 1 + random(6); k > 0 && processes > 1; k--) {
    const from = random(processes), to = (from + 1 + random(processes - 1)) % processes;
    channels.push({ name: "c" + channels.length, from, to, size: 1 + random(3) });
  }
  return channels;
}

class Writer {
  constructor(seed) {
    this.random = numbers(seed);
    this.second = this.random(3) === 0;
    this.processes = 1 + this.random(4);
    this.conversations = someConversations(this.random, this.processes);
    this.channels = someChannels(this.random, this.processes);
  }
  pick(list) { return list[this.random(list.length)]; }
  value() {
    const plain = () => this.pick(["x", "y", "a[1]", "a[x % 3]", String(this.random(9)), "-y", "x + y", "x * 3", "a[y]", "7 / x"]);
    if (this.second && this.random(8) === 0) return `(sum k from 0 to 2 : a[k])`;
    return this.random(3) ? plain() : `${plain()} + ${this.random(5)}`;
  }
  test(prior) {
    return this.pick(["1", "x % 3 > 0", "y < 6", "x <> y", "a[0] = a[2]", "0", `${this.value()} < 9`, prior ? "x > prior x" : "x > 2", "y % 2 = 0"]);
  }
  block(process, inside, deep) { return `{ ${this.pick(["", "var v; v := x; "])}${this.statements(process, inside, deep)} }`; }
  recovery(process, inside, deep, alternates, make) {
    const parts = Array.from({ length: alternates }, (_, k) => `by ${make ? make(k) : this.block(process, inside, deep + 1)}`);
    return `ensure ${this.test(true)}\nwithin ${4 + this.random(40)}\n${parts.join("\nelse ")}\nelse error;`;
  }
  statement(process, inside, deep) {
    const mine = this.channels.filter(c => inside < 0 || [c.from, c.to].every(end => this.conversations[inside].members.includes(end)));
    const sends = mine.filter(c => c.from === process), receives = mine.filter(c => c.to === process);
    if (sends.length && this.random(4) === 0) return `send ${this.pick(sends).name} ${this.value()};`;
    if (receives.length && this.random(deep ? 4 : 9) === 0) return this.receipt(this.pick(receives));
    switch (this.random(14)) {
      case 0: return `if ${this.test()} ${this.block(process, inside, deep + 1)}` + (this.random(2) ? ` else ${this.block(process, inside, deep + 1)}` : "");
      case 1: return `i := 0; while i < ${1 + this.random(3)} { i := i + 1; x := x + 1; }`;
      case 2: return `call f(${this.value()});`;
      case 3: case 4: case 5: return deep < 3 ? this.recovery(process, inside, deep, 1 + this.random(3)) : `x := ${this.value()};`;
      case 6: case 7: case 8: return `print "${this.pick(["one", "two < three", "</script>", "&amp;", "'"])}", ${this.value()};`;
      case 9: return this.random(6) ? `a[${this.random(3)}] := ${this.value()};` : "fail;";
      default: return `${this.pick(["x", "y"])} := ${this.value()};`;
    }
  }
  receipt(channel) {
    const to = this.pick(["x", "y", "a[1]"]);
    return this.second && this.random(2) ? `receive ${channel.name} ${to} else { y := y + 1; }` : `receive ${channel.name} ${to};`;
  }
  statements(process, inside, deep) {
    return Array.from({ length: this.random(5) }, () => this.statement(process, inside, deep)).join("\n");
  }
  // The parts of the conversations right inside one, or of those in none, with statements between them.
  body(process, parent, deep) {
    const parts = [this.statements(process, parent, deep)];
    this.conversations.forEach((c, number) => {
      if (c.parent === parent && c.members.includes(process)) parts.push(this.part(process, c, number, deep), this.statements(process, parent, deep));
    });
    return parts.join("\n");
  }
  part(process, conversation, number, deep) {
    const nested = this.random(conversation.alternates);
    const make = k => `{ ${k === nested ? this.body(process, number, deep + 1) : this.statements(process, number, deep + 1)} }`;
    return `converse ${conversation.name} ${this.recovery(process, number, deep, conversation.alternates, make)}`;
  }
  process(number) {
    return `process p${number} {\nvar x; var y; var i; var a[3];\nprocedure f(n) { x := x + n; print "f", n; }\n${this.body(number, -1, 0)}\nprint "end", x;\n}`;
  }
  source() {
    const channels = this.channels.map(c => `channel ${c.name} from p${c.from} to p${c.to} size ${c.size};`);
    const conversations = this.conversations.map(c => `conversation ${c.name} (${c.members.map(m => "p" + m).join(", ")});`);
    const processes = Array.from({ length: this.processes }, (_, p) => this.process(p));
    return [(this.second ? "edition 2; " : "") + "program random;", ...channels, ...conversations, ...processes, "end."].join("\n") + "\n";
  }
  // Turns as a list of processes.
  turns() {
    const found = [], all = [...Array(this.processes).keys()];
    while (found.length < 200) {
      if (this.random(2)) for (let k = this.random(9); k >= 0; k--) found.push(...all);
      else { const p = this.random(this.processes); for (let k = this.random(9); k >= 0; k--) found.push(p); }
    }
    return found.map(p => "p" + p);
  }
}

// A source, and its turns as names of processes.
function program(seed) {
  const writer = new Writer(seed);
  return { source: writer.source(), turns: writer.turns() };
}

// A program of so many processes, four and four of them in a conversation, which pass numbers on and often go back.
function crowd(processes) {
  const one = p => {
    const first = p % 4 === 0, last = p % 4 === 3, take = first ? "got := round;" : `receive c${p - 1} got;`, give = last ? "" : `send c${p} x + round;`;
    return `process p${p} {
  var x; var round; var got;
  while round < 6 {
    round := round + 1;
    converse C${p >> 2} ensure x % ${3 + p % 3} > 0 or round > 3 within 60
    by {
      ${take}
      x := x + ${1 + p % 5};
      ensure x > prior x + ${p % 3} within 9 by { x := x + 1; } else by { x := x + 2; print "two", x; } else by { x := x + 5; } else error;
      ${give}
    }
    else by { ${take} x := x + 1; ${give} print "second", round; }
    else by { ${take} x := x + 3; ${give} }
    else error;
    print "round", round, x;
  }
}`;
  };
  const all = [...Array(processes).keys()];
  const channels = all.filter(p => p % 4 !== 3).map(p => `channel c${p} from p${p} to p${p + 1} size 3;`);
  const conversations = all.filter(p => p % 4 === 0).map(p => `conversation C${p >> 2} (p${p}, p${p + 1}, p${p + 2}, p${p + 3});`);
  return ["program crowd;", ...channels, ...conversations, ...all.map(one), "end."].join("\n") + "\n";
}

// A program and a schedule whose texts try to break out of a page, in every byte that they may hold.
const HOSTILE = {
  source: `program script; # </script><script>broken = 1</script> <!-- &lt; &#60; ' " @TRACE@
process constructor { var proto__; var toString; var value;
  print "</script><script>broken = 1</script>";
  print "<img src=x onerror='broken = 1'>", "&amp; &#60; @SOURCE@ @TRACE@", "%SCRIPT%", "\${broken = 1}", "\`";
  ensure value > 0 within 9 by { print "<!-- </style>"; value := -1; } else by { print "' onmouseover='broken = 1"; value := 1; } else error;
}
process hasOwnProperty { var x; ensure x within 9 by { print "]]>"; } else error; }
end.
`,
  schedule: Buffer.concat([Buffer.from("all 12 # </script><script>broken = 1</script> @TRACE@ "), Buffer.from([...Array(256).keys()].filter(byte => byte !== 10)), Buffer.from("\n")]),
};

module.exports = { program, crowd, HOSTILE };
