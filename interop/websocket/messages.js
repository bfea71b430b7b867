// The messages that both ends put: 1,000 of 1 to 65,535 octets, as bench/crates/bench_links/src/messages.rt.txt makes them.
'use strict';

const MESSAGES = 1000;
const LONGEST = 65535;
const octets = Buffer.alloc(LONGEST + MESSAGES);
for (let place = 0; place < octets.length; place++) {
  octets[place] = (place * 167 + Math.floor(place / 256) * 13) % 256;
}

function message(number) {
  return octets.subarray(number, number + 1 + Math.floor(number * (LONGEST - 1) / (MESSAGES - 1)));
}

// Debian's node-ws, wherever it stands.
function library() {
  try {
    return require('ws');
  } catch {
    return require('/usr/share/nodejs/ws');
  }
}

module.exports = { MESSAGES, message, library };
