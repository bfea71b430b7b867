// A link by node-ws that is led by lines: node-client.js URI
//
// Lines that are read: `send HEX`, `text WORDS`, `pause`, `resume`, `close`. Lines that are written: `open PROTOCOL`, `message HEX`,
// `text WORDS`, `close CODE REASON`, `failed WHY`.
'use strict';

const readline = require('readline');
const WebSocket = require('../websocket/messages.js').library();

const ws = new WebSocket(process.argv[2], ['hub.bsc.bacnet.org'], { perMessageDeflate: false });
ws.on('open', () => console.log(`open ${ws.protocol}`));
ws.on('message', (m, binary) => console.log(binary ? `message ${m.toString('hex')}` : `text ${m}`));
ws.on('error', (error) => console.log(`failed ${error.message}`));
// Lines that wait for who reads them have to be out first.
ws.on('close', (code, reason) => process.stdout.write(`close ${code} ${reason}\n`, () => process.exit(0)));

const lines = readline.createInterface({ input: process.stdin });
lines.on('line', (line) => {
  const word = line.split(' ', 1)[0];
  const rest = line.slice(word.length + 1);
  if (word === 'send') {
    ws.send(Buffer.from(rest, 'hex'));
  } else if (word === 'text') {
    ws.send(rest);
  } else if (word === 'pause') {
    ws.pause();
  } else if (word === 'resume') {
    ws.resume();
  } else if (word === 'close') {
    ws.close(1000);
  }
});
lines.on('close', () => ws.terminate());
