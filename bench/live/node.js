// A node that does the work of `bsc node` by node-ws: it joins a hub, takes direct connections, answers what it is asked, and
// writes the NPDUs that come. It shares no line with bsc, and checks next to nothing.
//
//     node node.js HUB-PORT PORT VMAC
'use strict';

const WebSocket = require('../../interop/websocket/messages.js').library();
const [hubPort, port] = process.argv.slice(2, 4).map(Number);
const name = process.argv[4].toUpperCase();
const IDENTITY = Buffer.concat([Buffer.from(name, 'hex'), Buffer.alloc(16, 0xEE), Buffer.from('064005D9', 'hex')]);
const NONE = Buffer.alloc(0);
let hubStatus = 0;
let number = 0;

function message(kind, id, to, payload) {
  return Buffer.concat([Buffer.from([kind, to.length ? 4 : 0, id >> 8, id & 255]), to, payload]);
}

function write(line) {
  process.stdout.write(`${line}\n`);
}

// What comes of a peer, by a hub or directly.
function hear(socket, peer, m) {
  const from = m[1] & 8 ? m.subarray(4, 10) : NONE;
  const at = 4 + from.length + (m[1] & 4 ? 6 : 0);
  const id = m.readUInt16BE(2);
  if (m[0] === 1) {
    write(`npdu ${from.length ? from.toString('hex').toUpperCase() : peer} ${m[1] & 4 ? 'broadcast' : 'unicast'} ${m.toString('hex', at).toUpperCase()}`);
  } else if (m[0] === 5) {
    number = (number + 1) & 0xFFFF;
    socket.send(message(4, number, from, Buffer.from([hubStatus, 1, 6, 0x40, 5, 0xD9])));
  } else if (m[0] === 0x0A) {
    socket.send(message(0x0B, id, NONE, NONE));
  } else if (m[0] === 8) {
    socket.send(message(9, id, NONE, NONE));
    socket.close(1000);
  }
}

const hub = new WebSocket(`ws://127.0.0.1:${hubPort}/`, ['hub.bsc.bacnet.org'], { perMessageDeflate: false });
hub.on('open', () => hub.send(message(6, 1, NONE, IDENTITY)));
hub.on('message', (m) => {
  if (hubStatus) {
    hear(hub, '', m);
  } else if (m[0] === 7) {
    hubStatus = 1;
    write('hub primary');
  }
});
hub.on('error', () => process.exit(1));

const server = new WebSocket.Server({
  host: '127.0.0.1',
  port,
  perMessageDeflate: false,
  handleProtocols: (offered) => (offered.has('dc.bsc.bacnet.org') ? 'dc.bsc.bacnet.org' : false),
});
server.on('connection', (socket) => {
  let peer = '';
  socket.on('message', (m) => {
    if (peer) {
      hear(socket, peer, m);
    } else if (m.length === 30 && m[0] === 6) {
      peer = m.toString('hex', 4, 10).toUpperCase();
      socket.send(message(7, m.readUInt16BE(2), NONE, IDENTITY));
      write(`direct ${peer} up`);
    }
  });
  socket.on('error', () => {});
  socket.on('close', () => peer && write(`direct ${peer} down`));
});
server.on('listening', () => process.stderr.write(`node: accepts ws://127.0.0.1:${port}/\n`));
