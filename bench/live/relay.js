// A relay that does the work of a hub by node-ws: nodes join by a Connect-Request and get unicasts and broadcasts by
// their VMACs. It shares no line with bsc and proves nothing.
//
//     node relay.js PORT LINKS
//
// It listens at 127.0.0.1, and after so many links it writes the counts that `bsc hub --sessions` writes, and ends.
'use strict';

const { WebSocketServer } = require('../../interop/websocket/messages.js').library();
const [port, links] = process.argv.slice(2).map(Number);
const OUTBOX = 64;
const LONGEST = 1600;
const EVERYONE = 'ffffffffffff';
const IDENTITY = Buffer.from('0200000000FF00112233445566778899AABBCCDDEEFF400005D9', 'hex');
const counts = { joined: 0, replaced: 0, refused: 0, unicasts: 0, broadcasts: 0, appended: 0, dropped: 0, full: 0, missed: 0 };
const byVmac = new Map();
const byDevice = new Map();
let left = 0;

// A node that doesn't read has more octets waiting than an outbox of the longest messages.
const isFull = (peer) => peer.socket.bufferedAmount > OUTBOX * LONGEST;

function unlist(peer) {
  if (!peer.live) return;
  peer.live = false;
  byVmac.delete(peer.vmac);
  byDevice.delete(peer.device);
}

function connect(peer, m) {
  const vmac = m.toString('hex', 4, 10);
  const device = m.toString('hex', 10, 26);
  const holder = byVmac.get(vmac);
  const same = byDevice.get(device);
  if (vmac === '0200000000ff' || (holder && holder !== same)) {
    counts.refused++;
    peer.socket.send(Buffer.from([0, 0, m[2], m[3], 6, 1, 0, 0, 7, 0, 0x97]));
    peer.socket.close(1000);
    return;
  }
  if (same) {
    counts.replaced++;
    unlist(same);
    same.socket.send(Buffer.from([8, 0, 0, 1]));
    same.socket.close(1000);
  }
  Object.assign(peer, { vmac, device, octets: Buffer.from(m.subarray(4, 10)), longest: m.readUInt16BE(26), joined: true, live: true });
  byVmac.set(vmac, peer);
  byDevice.set(device, peer);
  counts.joined++;
  peer.socket.send(Buffer.concat([Buffer.from([7, 0, m[2], m[3]]), IDENTITY]));
}

function forward(peer, m) {
  const to = m.toString('hex', 4, 10);
  const before = counts.appended;
  if (to === EVERYONE) {
    counts.broadcasts++;
    const out = Buffer.allocUnsafe(m.length + 6);
    m.copy(out, 0, 0, 4);
    out[1] |= 8;
    peer.octets.copy(out, 4);
    m.copy(out, 10, 4);
    for (const other of byVmac.values()) {
      if (other === peer || out.length > other.longest) continue;
      if (isFull(other)) {
        counts.missed++;
      } else {
        counts.appended++;
        other.socket.send(out);
      }
    }
  } else {
    counts.unicasts++;
    const holder = peer.live ? byVmac.get(to) : undefined;
    if (holder && m.length <= holder.longest) {
      if (isFull(holder)) {
        counts.full++;
        unlist(holder);
        holder.socket.close(1008, 'outbox full');
      } else {
        // The message is this relay's own, and as long as what is sent of it.
        m[1] = (m[1] | 8) & ~4;
        peer.octets.copy(m, 4);
        counts.appended++;
        holder.socket.send(m);
      }
    }
  }
  if (counts.appended === before) counts.dropped++;
}

const server = new WebSocketServer({
  host: '127.0.0.1',
  port,
  perMessageDeflate: false,
  handleProtocols: (offered) => (offered.has('hub.bsc.bacnet.org') ? 'hub.bsc.bacnet.org' : false),
});
server.on('connection', (socket) => {
  const peer = { socket, joined: false, live: false };
  socket.on('message', (m, isBinary) => {
    if (!isBinary || m.length < 4) return;
    if (!peer.joined) {
      if (m.length === 30 && m[0] === 6 && m[1] === 0) connect(peer, m);
    } else if (m.length >= 10 && (m[1] & 0x0C) === 4) {
      forward(peer, m);
    } else if (m.length === 4 && m[0] === 0x0A) {
      socket.send(Buffer.from([0x0B, 0, m[2], m[3]]));
    } else if (m.length === 4 && m[0] === 8) {
      unlist(peer);
      socket.send(Buffer.from([9, 0, m[2], m[3]]));
      socket.close(1000);
    }
  });
  socket.on('error', () => {});
  socket.on('close', () => {
    unlist(peer);
    if (++left < links) return;
    process.stdout.write(`hub counts ${Object.entries(counts).map(([name, count]) => `${name}=${count}`).join(' ')}\n`);
    server.close();
  });
});
server.on('listening', () => process.stderr.write(`relay: serves ws://127.0.0.1:${port}/\n`));
