// Messages over loopback by node-ws, to be measured beside the links of bsc_ws: links.js URI N OCTETS
//
// It does what `bench_links loopback URI N OCTETS` does, and writes the same lines: it puts N messages of so many octets to a
// server that puts them back, 16 at a time, and compares what comes back. The rate goes to standard error.
'use strict';

const WebSocket = require('../../interop/websocket/messages.js').library();
const [uri, number, length] = process.argv.slice(2);
const count = Number(number);
const octets = Number(length);
const AHEAD = 16;
const MESSAGES = 64;

const messages = Array.from({ length: MESSAGES }, (_, k) =>
  Buffer.from(Array.from({ length: octets }, (_, j) => (31 * k + 7 * j) % 251)));

const ws = new WebSocket(uri, ['hub.bsc.bacnet.org'], { perMessageDeflate: false });
let put = 0;
let same = 0;
let came = 0;
let start;

function putSome() {
  for (let more = 0; more < AHEAD; more++) {
    ws.send(messages[put % MESSAGES]);
    put++;
  }
}

ws.on('open', () => {
  start = process.hrtime.bigint();
  putSome();
});
ws.on('message', (m) => {
  same += m.equals(messages[came % MESSAGES]) ? 1 : 0;
  came++;
  if (came < put) {
    return;
  }
  if (put + AHEAD <= count) {
    putSome();
    return;
  }
  const micros = Number((process.hrtime.bigint() - start) / 1000n);
  console.log(`${octets} octets: ${same} of ${count} came back the same`);
  console.error(`${octets} octets: ${Math.floor(same * 1e6 / Math.max(micros, 1))} messages a second`);
  ws.close(1000);
});
ws.on('error', (error) => console.log(error.message));
