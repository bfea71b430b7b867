// A small hub by node-ws, written from docs/HUB.md and docs/CHECKS.md: node_hub.js [BUG] [--wait MS]
//
// It binds a free port of 127.0.0.1, writes that port, and serves until it is killed. It keeps no outboxes: what is forwarded
// waits in the library. Its waits are those of docs/SCRIPTS.md, or with --wait each of them so long. A word plants a bug, which tools/conform hub has to find; --bugs names them all.
'use strict';

const WebSocket = require('../websocket/messages.js').library();

const PROTOCOL = 'hub.bsc.bacnet.org';
const [RESULT, NPDU, RESOLUTION, RESOLUTION_ACK, ADVERTISEMENT, SOLICITATION, CONNECT_REQUEST, CONNECT_ACCEPT,
  DISCONNECT_REQUEST, DISCONNECT_ACK, HEARTBEAT_REQUEST, HEARTBEAT_ACK, PROPRIETARY] = Array(13).keys();
const LONGEST = 1520;
const OWN = Buffer.from('0200000000FD' + '0F1E2D3C4B5A69788796A5B4C3D2E1F0' + '05F0' + '05D9', 'hex');
const BROADCAST = 'ffffffffffff';
const NOBODY = '000000000000';
const ALL_PHASES = { awaiting: [CONNECT_REQUEST], connected: [DISCONNECT_REQUEST, HEARTBEAT_REQUEST], disconnecting: [RESULT, DISCONNECT_ACK] };

// The bug that each word plants: the rule by which it is found, a group of scripts that find it, and what it does.
const BUGS = {
  'old-asked-not': ['old-asked', 'takeover', 'the old connection of a device that took over is let alone'],
  'old-holder': ['old-holder', 'takeover', 'a broadcast goes to the old connection too, until it has answered'],
  'old-sender': ['old-sender', 'takeover', 'what the old connection sends is forwarded'],
  'back-to-sender': ['back-to-sender', 'broadcast', 'a broadcast comes back to its sender'],
  'nak-to-response': ['nak-to-response', 'malformed', 'a response that is wrong gets a NAK'],
  'origin-kept': ['origin-in', 'addresses', 'the Originating address that a sender gives is taken for its own'],
  'destination-left': ['destination-out', 'unicast', 'a unicast is forwarded with its Destination'],
  'destination-lost': ['destination-kept', 'broadcast', 'a broadcast is forwarded without its Destination'],
  'hub-vmac-in': ['duplicate', 'refusals', 'a node that asks for the VMAC of the hub is let in'],
  'wrong-duplicate': ['duplicate', 'refusals', 'a duplicate gets the code 152'],
  'no-nak': ['nak', 'malformed', 'a payload where none belongs is met by silence'],
  'unknown-code': ['nak-code', 'malformed', 'an unknown function gets the code of an unknown proprietary one'],
  'reserved-forwarded': ['refused-forwarded', 'malformed', 'a unicast with a reserved flag is forwarded'],
  'order': ['order', 'ordering', 'frames wait for the next turn of the loop, and the last one goes first'],
  'to-all': ['only-holder', 'unicast', 'a unicast that nobody holds goes to all'],
  'too-long': ['too-long', 'unicast', 'the longest message of a receiver is not looked at'],
  'accept-id': ['message-id', 'join', 'a Connect-Accept has the Message ID 1'],
  'no-heartbeat': ['heartbeat-ack', 'heartbeat', 'a Heartbeat-Request with options gets no answer'],
  'payload-changed': ['unchanged', 'unicast', 'the last octet of a long payload is lost'],
  'no-close': ['close', 'disconnect', 'the WebSocket of who has left is not closed'],
};

const words = process.argv.slice(2);
let [connectWait, disconnectWait, heartbeat] = [10000, 10000, 300000]; // ms
if (words.includes('--wait')) {
  connectWait = disconnectWait = heartbeat = Number(words.splice(words.indexOf('--wait'), 2)[1]);
}
if (words[0] === '--bugs') {
  Object.entries(BUGS).forEach(([word, [rule, group]]) => console.log(`${word} ${rule} ${group}`));
  process.exit(0);
}
if (words.length > 1 || (words.length === 1 && !BUGS[words[0]])) {
  console.error('node_hub: no such bug; --bugs names them');
  process.exit(2);
}
const bug = words[0] || '';

const live = new Map(); // connections by their VMAC
const old = new Set(); // those that were taken over, and haven't gone

const is = (word) => bug === word;
const hex = (octets) => octets.toString('hex');

// A check that fails: with the error code of its NAK, if it has one, and the header marker.
class Wrong {
  constructor(code, marker = 0) {
    this.code = code;
    this.marker = marker;
  }
}

function put(it, ...parts) {
  if (it.ws.readyState === WebSocket.OPEN) {
    it.ws.send(Buffer.concat(parts.map((part) => Buffer.from(part))));
  }
}

function nak(it, message, code, marker = 0) {
  put(it, [RESULT, 0], message.subarray(2, 4), [message[0], 1, marker, 0, 7, 0, code]);
}

function end(it, code = 1000, reason = '') {
  it.phase = 'over';
  leave(it);
  it.ws.close(code, reason);
}

function leave(it) {
  clearTimeout(it.timer);
  if (live.get(it.vmac) === it) {
    live.delete(it.vmac);
  }
  old.delete(it);
}

// A connection without a message for twice the heartbeat ends.
function waitForMessage(it) {
  clearTimeout(it.timer);
  it.timer = setTimeout(() => end(it, 1008, 'idle'), 2 * heartbeat);
}

function receive(it, message) {
  let at;
  try {
    at = judged(it.phase, message);
  } catch (wrong) {
    if (!(wrong instanceof Wrong)) {
      throw wrong;
    }
    refuse(it, message, wrong);
    return;
  }
  const [name, flags] = message;
  if (flags & 0x04) {
    forward(it, message);
  } else if (name === CONNECT_REQUEST) {
    connect(it, message.subarray(2, 4), message.subarray(at));
  } else if (name === HEARTBEAT_REQUEST) {
    if (!(is('no-heartbeat') && flags)) {
      put(it, [HEARTBEAT_ACK, 0], message.subarray(2, 4));
    }
  } else if (name === DISCONNECT_REQUEST) {
    put(it, [DISCONNECT_ACK, 0], message.subarray(2, 4));
    if (is('no-close')) {
      leave(it);
    } else {
      end(it);
    }
  } else if (message.readUInt16BE(2) === it.asked && (name === DISCONNECT_ACK || message[at] === DISCONNECT_REQUEST)) {
    end(it);
  }
}

function refuse(it, message, wrong) {
  const isBroadcast = message.length >= 10 && message[1] & 0x04 && hex(message.subarray(4, 10)) === BROADCAST;
  const isResponse = [RESULT, RESOLUTION_ACK, CONNECT_ACCEPT, DISCONNECT_ACK, HEARTBEAT_ACK].includes(message[0]);
  if (!wrong.code || isBroadcast || (isResponse && !is('nak-to-response')) || (is('no-nak') && wrong.code === 150)) {
    return;
  }
  nak(it, message, is('unknown-code') && wrong.code === 143 ? 144 : wrong.code, wrong.marker);
}

function connect(it, id, who) {
  const vmac = hex(who.subarray(0, 6));
  const device = hex(who.subarray(6, 22));
  const holder = live.get(vmac);
  if ((vmac === hex(OWN.subarray(0, 6)) && !is('hub-vmac-in')) || (holder && holder.device !== device)) {
    nak(it, Buffer.concat([Buffer.from([CONNECT_REQUEST, 0]), id]), is('wrong-duplicate') ? 152 : 151);
    end(it);
    return;
  }
  const other = [...live.values()].find((one) => one.device === device);
  if (other) {
    live.delete(other.vmac);
    other.phase = 'disconnecting';
    other.asked = 0x4000 + Math.floor(Math.random() * 0x4000);
    old.add(other);
  }
  Object.assign(it, { vmac, device, longest: who.readUInt16BE(22), phase: 'connected' });
  waitForMessage(it);
  live.set(vmac, it);
  put(it, [CONNECT_ACCEPT, 0], is('accept-id') ? [0, 1] : id, OWN);
  if (other && !is('old-asked-not')) {
    put(other, [DISCONNECT_REQUEST, 0, other.asked >> 8, other.asked & 0xff]);
    clearTimeout(other.timer);
    other.timer = setTimeout(() => end(other), disconnectWait);
  }
}

function forward(it, message) {
  let origin = Buffer.from(it.vmac, 'hex');
  let rest = message.subarray(4);
  if (message[1] & 0x08) {
    origin = rest.subarray(0, 6);
    rest = rest.subarray(6);
  }
  const destination = hex(rest.subarray(0, 6));
  const isBroadcast = destination === BROADCAST;
  const keeps = isBroadcast ? !is('destination-lost') : is('destination-left');
  let behind = rest.subarray(keeps ? 0 : 6);
  if (is('payload-changed') && behind.length > 200) {
    behind = behind.subarray(0, behind.length - 1);
  }
  const flags = (message[1] & 0xf3) | 0x08 | (keeps ? 0x04 : 0);
  const frame = [[message[0], flags], message.subarray(2, 4), origin, behind];
  const long = 4 + 6 + behind.length;
  for (const other of receivers(it, destination)) {
    if (long <= other.longest || is('too-long')) {
      hand(other, frame);
    }
  }
}

function receivers(it, destination) {
  if (destination === BROADCAST) {
    const others = [...live.values()].filter((one) => one !== it || is('back-to-sender'));
    return is('old-holder') ? [...others, ...old] : others;
  }
  const holder = live.get(destination);
  return holder ? [holder] : is('to-all') ? [...live.values()].filter((one) => one !== it) : [];
}

function hand(it, frame) {
  if (!is('order')) {
    put(it, ...frame);
    return;
  }
  it.waiting.push(frame);
  if (it.waiting.length === 1) {
    setTimeout(() => it.waiting.splice(0).reverse().forEach((one) => put(it, ...one)), 5);
  }
}

// Where the payload of a message begins. By docs/CHECKS.md, in its order.
function judged(phase, message) {
  if (message.length < 4 || message.length > LONGEST) {
    throw new Wrong();
  }
  const [name, flags] = message;
  const at = 4 + (flags & 0x08 ? 6 : 0) + (flags & 0x04 ? 6 : 0);
  if (message.length < at || (flags & 0x08 && !(is('origin-kept') && flags & 0x04))) {
    throw new Wrong();
  }
  if (flags & 0xf0 && !(is('reserved-forwarded') && flags & 0x04)) {
    throw new Wrong(145);
  }
  if (flags & 0x04) {
    if (phase !== 'connected' && !(is('old-sender') && phase === 'disconnecting')) {
      throw new Wrong();
    }
    return at;
  }
  if (name > PROPRIETARY) {
    throw new Wrong(143);
  }
  return judgedBehind(phase, name, flags, message, at);
}

function judgedBehind(phase, name, flags, message, begin) {
  let at = begin;
  const lists = [0x02, 0x01].map((bit) => {
    const items = [];
    for (let follows = flags & bit; follows; follows = items[items.length - 1].marker & 0x80) {
      const marker = message[at];
      const length = marker & 0x20 && at + 3 <= message.length ? message.readUInt16BE(at + 1) : 0;
      const after = at + 1 + (marker & 0x20 ? 2 + length : 0);
      if (at >= message.length || after > message.length) {
        throw new Wrong(147);
      }
      items.push({ marker, length });
      at = after;
    }
    return items;
  });
  for (const { marker, length } of lists.flat()) {
    const kind = marker & 0x1f;
    const hasData = Boolean(marker & 0x20);
    if (kind === 0 || (kind === 1 && hasData) || (kind === 31 && (!hasData || length < 3))) {
      throw new Wrong(145);
    }
  }
  if (lists[1].length && ![NPDU, PROPRIETARY].includes(name)) {
    throw new Wrong(145);
  }
  const strange = lists[0].find(({ marker }) => marker & 0x40 && (marker & 0x1f) !== 1);
  if (strange) {
    throw new Wrong(146, strange.marker);
  }
  lookAtPayload(name, message.subarray(at));
  if (!(ALL_PHASES[phase] || []).includes(name)) {
    throw new Wrong();
  }
  return at;
}

function lookAtPayload(name, payload) {
  const fixedParts = { [NPDU]: 1, [ADVERTISEMENT]: 6, [CONNECT_REQUEST]: 26, [CONNECT_ACCEPT]: 26, [PROPRIETARY]: 3 };
  let fixed = fixedParts[name] || 0;
  let hasRest = [NPDU, RESOLUTION_ACK, PROPRIETARY].includes(name);
  if (name === RESULT) {
    fixed = payload[1] === 1 ? 7 : 2;
    hasRest = payload[1] >= 1;
  }
  if (fixed && name !== RESULT && !payload.length) {
    throw new Wrong(149);
  }
  if (payload.length < fixed) {
    throw new Wrong(147);
  }
  if (payload.length > fixed && !hasRest) {
    throw new Wrong(150);
  }
  const vmac = hex(payload.subarray(0, 6));
  const isOutOfRange = {
    [RESULT]: () => payload[1] > 1 || !isText(payload.subarray(7)),
    [RESOLUTION_ACK]: () => !isText(payload),
    [ADVERTISEMENT]: () => payload[0] > 2 || payload[1] > 1,
    [CONNECT_REQUEST]: () => vmac === NOBODY || vmac === BROADCAST,
    [CONNECT_ACCEPT]: () => vmac === NOBODY || vmac === BROADCAST,
  };
  if (isOutOfRange[name] && isOutOfRange[name]()) {
    throw new Wrong(80);
  }
  if (name === PROPRIETARY) {
    throw new Wrong(144);
  }
}

function isText(octets) {
  try {
    new TextDecoder('utf-8', { fatal: true }).decode(octets);
    return true;
  } catch {
    return false;
  }
}

const server = new WebSocket.Server({
  host: '127.0.0.1',
  port: 0,
  perMessageDeflate: false,
  handleProtocols: (offered) => (offered.has(PROTOCOL) ? PROTOCOL : false),
});
server.on('listening', () => console.log(server.address().port));
server.on('connection', (ws) => {
  const it = { ws, phase: 'awaiting', vmac: '', waiting: [] };
  it.timer = setTimeout(() => end(it, 1008, 'connect wait'), connectWait);
  ws.on('message', (message, isBinary) => {
    if (it.phase === 'over') {
      return;
    }
    if (!isBinary) {
      end(it, 1003);
      return;
    }
    if (it.phase === 'connected') {
      waitForMessage(it);
    }
    receive(it, message);
  });
  ws.on('error', () => {});
  ws.on('close', () => leave(it));
});
