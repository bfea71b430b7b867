// A server by node-ws: server.js SUB-PROTOCOL ANOTHER
//
// It writes its port, puts back each message of a link, and ends after the first link whose path is /. It answers a
// request for /none without a sub-protocol, and one for /other with one that wasn't asked for.
'use strict';

const { MESSAGES, message, library } = require('./messages.js');
const WebSocket = library();
const [protocol, another] = process.argv.slice(2);

const server = new WebSocket.Server({
  host: '127.0.0.1',
  port: 0,
  perMessageDeflate: false,
  handleProtocols: (offered, request) => {
    if (request.url === '/') {
      return offered.has(protocol) ? protocol : false;
    }
    return request.url === '/other' ? another : false;
  },
});

server.on('listening', () => console.log('port', server.address().port));
server.on('connection', (ws, request) => {
  let same = 0;
  let number = 0;
  ws.on('message', (m) => {
    same += number < MESSAGES && m.equals(message(number)) ? 1 : 0;
    number++;
    ws.send(m);
  });
  ws.on('error', () => {});
  ws.on('close', (code) => {
    if (request.url === '/') {
      console.log(`${same} of ${number} messages came as they were put by ${ws.protocol}, close ${code}`);
      server.close();
    }
  });
});
