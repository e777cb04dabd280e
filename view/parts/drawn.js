/* The style of everything that is drawn; the colours are put in by the page, or by whoever saves a picture. */
const PICTURE_STYLE = `
text{font:11px system-ui,"Segoe UI",Arial,sans-serif;fill:var(--ink)}
.paper{fill:var(--back)} .name{font-weight:650;font-size:13px} .name.folded{font-weight:400;font-size:10.5px;fill:var(--soft)}
.sub{fill:var(--soft);font-size:10.5px}
.axis{fill:var(--soft);font-size:10px;text-anchor:middle} .tick{stroke:var(--line);fill:none} .gap{stroke:var(--soft);fill:none}
.base{stroke:var(--faint);stroke-width:1.2} .lane{fill:var(--panel)} .edge{stroke:var(--line)}
.took{fill:var(--took)} .ring{fill:var(--back);stroke:var(--took);stroke-width:1.7} .point{fill:var(--point)} .holds{fill:var(--good)}
.send{fill:var(--message)} .take{fill:var(--back);stroke:var(--message);stroke-width:1.5}
.wait{stroke:var(--soft);stroke-width:2.6;stroke-linecap:round;fill:none} .atline{stroke:var(--good);stroke-width:1.8;fill:none}
.idle{fill:var(--faint)}
.cross{stroke:var(--bad);stroke-width:2.6;fill:none;stroke-linecap:round} .future{stroke:var(--faint);stroke-width:1.4}
.took.gone,.point.gone,.holds.gone,.send.gone{fill:var(--dead)} .ring.gone,.take.gone{stroke:var(--dead);fill:var(--gone0)}
.wait.gone,.atline.gone{stroke:var(--dead)}
.strike{stroke:var(--grey);stroke-width:1.4}
.bracket{fill:none;stroke:var(--ink);stroke-width:2} .bracket.gone{stroke:var(--grey);stroke-dasharray:3 2.5;stroke-width:1.1}
.bracket.good{stroke:var(--good);stroke-width:1.5}
.number{font-size:10.5px;font-weight:650} .number.gone{fill:var(--soft);font-weight:400;text-decoration:line-through} .number.good{fill:var(--good)}
.field0{fill:var(--field0)} .field1{fill:var(--field1)} .field2{fill:var(--field2)} .field0.gone{fill:var(--gone0)}
.field1.gone{fill:var(--gone1)} .field2.gone{fill:var(--gone2)}
.recovery{fill:none;stroke:var(--point);stroke-width:2.4} .recovery.far{stroke-dasharray:2 3;stroke-width:1.6}
.recovery.gone{stroke:var(--grey);stroke-width:1.2}
.test{fill:none;stroke:var(--good);stroke-width:2} .test.far{stroke-dasharray:2 3;stroke-width:1.4} .test.gone{stroke:var(--grey)}
.ended{fill:none;stroke:var(--bad);stroke-width:1.6;stroke-dasharray:5 3} .ended.far{stroke-dasharray:1.5 4} .ended.gone{stroke:var(--grey)}
.legend{font-size:10.5px;paint-order:stroke;stroke:var(--back);stroke-width:3px;stroke-linejoin:round} .legend.recoveries{fill:var(--point)}
.legend.tests{fill:var(--good)} .legend.gone{fill:var(--grey)}
.return{fill:none;stroke:var(--bad);stroke-width:1.8} .return.new{stroke-width:3} .return.gone{stroke:var(--grey);stroke-width:1.1}
.head{fill:var(--bad);stroke:none} .head.gone{fill:var(--grey)}
.message{fill:none;stroke:var(--message);stroke-width:1.7} .message.gone{stroke:var(--grey);stroke-dasharray:4 3;stroke-width:1.2}
.arrow{fill:var(--message)} .arrow.gone{fill:var(--grey)}
.value{font-size:10.5px;font-weight:650;paint-order:stroke;stroke:var(--back);stroke-width:3px;stroke-linejoin:round}
.value.gone{fill:var(--soft);font-weight:400}
.held{stroke:var(--soft);stroke-width:1.3;stroke-dasharray:1.5 2.5;fill:none} .square{fill:var(--back);stroke:var(--soft);stroke-width:1.2}
.gone .held,.gone .square{stroke:var(--dead)}
.dropped{stroke:var(--grey);stroke-width:1.4} .tag{fill:var(--ink)}
.printed{font-size:10.5px;font-family:ui-monospace,Consolas,monospace;paint-order:stroke;stroke:var(--back);stroke-width:3px;stroke-linejoin:round}
.finish{stroke:var(--ink);stroke-width:3}
.failed{fill:var(--bad);font-weight:650;paint-order:stroke;stroke:var(--back);stroke-width:3px;stroke-linejoin:round}
.now{stroke:var(--ink);stroke-width:1.2} .nowbox{fill:var(--ink)} .nowtext{fill:var(--back);font-weight:650;text-anchor:middle;font-size:10.5px}
.full{fill:var(--took)} .full.gone{fill:var(--grey)} .full.waits{fill:var(--soft);fill-opacity:.38} .full.back,.full.bad{fill:var(--bad)}
.full.good{fill:var(--good)}
.later{stroke:var(--faint);stroke-width:1.4;stroke-dasharray:2 4;fill:none} .asked{fill:var(--amber)} .pale{fill-opacity:.35}
.veil{fill:var(--back);fill-opacity:.78;pointer-events:none}
.cut{fill:none;stroke:var(--took);stroke-width:2.2;stroke-dasharray:6 3;pointer-events:none}
.parting{fill:none;stroke:var(--amber);stroke-width:2} .parting.first{stroke-width:3}
.partingtext{fill:var(--amber);font-weight:650;font-size:10.5px;paint-order:stroke;stroke:var(--back);stroke-width:3px;stroke-linejoin:round}
.ringpaper{fill:var(--back);fill-opacity:.93;stroke:var(--bad);stroke-width:1.2;stroke-dasharray:4 3} .ringpaper.soon{stroke:var(--amber)}
.waitsfor{fill:none;stroke:var(--bad);stroke-width:2.4} .waitshead{fill:var(--bad)} .waiter{fill:var(--back);stroke:var(--bad);stroke-width:2.2}
.ringtext{fill:var(--bad);font-weight:650;font-size:10.5px} .waitsfor.soon,.waiter.soon{stroke:var(--amber)}
.waitshead.soon,.ringtext.soon{fill:var(--amber)}
.runname{font-weight:650;font-size:10.5px;fill:var(--soft);paint-order:stroke;stroke:var(--back);stroke-width:3px}
.between{stroke:var(--soft);stroke-width:1.5;fill:none}
.nowcolumn{fill:var(--changed);fill-opacity:.6;pointer-events:none} .tail{fill:var(--panel)}`;

// Puts it into the page, for what stands in an element of the class `drawn`.
function addDrawnStyle() {
  const inDrawn = names => names.split(",").map(name => `.drawn ${name.trim()}`).join(",");
  addStyle(PICTURE_STYLE.replace(/([^{}]+)(\{[^}]*\})/g, (_, names, rest) => inDrawn(names) + rest));
}
