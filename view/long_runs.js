/* Programs whose runs are as long as one wants, or stand still: for the tests of the page. */
"use strict";

// A baker and a stall trade again and again. Now and then a loaf is refused, and made anew.
const MARKET = `program market;
channel bread from baker to stall size 2;
channel coins from stall to baker size 2;
conversation Trade (baker, stall);
process baker {
  var round; var loaf; var purse; var coin;
  while round < 1000000 {
    round := round + 1;
    loaf := loaf * 7 % 31 + round % 5;
    converse Trade ensure purse >= prior purse within 40
    by { send bread loaf; receive coins coin; purse := purse + coin; }
    else by { send bread 12; receive coins coin; purse := purse + coin; }
    else error;
    if round % 20 = 0 { print "round", round, "purse", purse; }
  }
}
process stall {
  var got; var sold; var day; var shelf[3];
  while day < 1000000 {
    day := day + 1;
    shelf[day % 3] := sold;
    converse Trade ensure got < 25 within 30
    by {
      receive bread got; send coins got / 3;
      ensure sold % 4 < 3 within 9 by { sold := sold + 1; } else by { sold := sold + 2; } else error;
    }
    else by { receive bread got; send coins 4; }
    else error;
  }
}
end.
`;

// Three wait for one another, and a fourth goes on; with `isBounded` one of the three waits inside a block.
const table = isBounded => `program table;
channel salt from ann to ben size 1;
channel bread from ben to cai size 1;
channel oil from cai to ann size 1;
process ann {
  var got;
  ${isBounded ? "ensure got > 0 within 30 by { receive oil got; } else by { got := 1; } else error;" : "receive oil got;"}
  send salt 1;
}
process ben { var got; receive salt got; send bread 1; }
process cai { var got; receive bread got; send oil 1; }
process dot { var songs; while songs < 9 { songs := songs + 1; } }
end.
`;

module.exports = { MARKET, table };
