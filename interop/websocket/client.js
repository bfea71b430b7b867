// A client by node-ws: client.js URI SUB-PROTOCOL ANOTHER
//
// It puts all messages and compares what comes back, then a message in three parts between which a ping stands. It asks
// for a link without a sub-protocol, with another one, and with both.
'use strict';

const { MESSAGES, message, library } = require('./messages.js');
const WebSocket = library();
const [uri, protocol, another] = process.argv.slice(2);

function connect(protocols) {
  return new WebSocket(uri, protocols, { perMessageDeflate: false });
}

function exchange() {
  return new Promise((done) => {
    const ws = connect([protocol]);
    let same = 0;
    let number = 0;
    ws.on('open', () => ws.send(message(0)));
    ws.on('message', (m) => {
      same += m.equals(message(number)) ? 1 : 0;
      number++;
      if (number < MESSAGES) {
        ws.send(message(number));
      } else {
        ws.close(1000);
      }
    });
    ws.on('error', (error) => console.log(error.message));
    ws.on('close', (code) => {
      console.log(`${same} of ${MESSAGES} messages came back the same by ${ws.protocol}, close ${code}`);
      done();
    });
  });
}

function offerBoth() {
  return new Promise((done) => {
    const ws = connect([another, protocol]);
    let back = 'nothing';
    let ponged = false;
    const finish = () => {
      if (ponged && back !== 'nothing') {
        ws.close(1000);
      }
    };
    ws.on('open', () => {
      ws.send(Buffer.from('in '), { fin: false });
      ws.ping('between');
      ws.send(Buffer.from('three '), { fin: false });
      ws.send(Buffer.from('parts'), { fin: true });
    });
    ws.on('pong', (octets) => {
      ponged = octets.toString() === 'between';
      finish();
    });
    ws.on('message', (m) => {
      back = m.toString();
      finish();
    });
    ws.on('error', (error) => console.log(error.message));
    ws.on('close', () => {
      const ping = ponged ? 'a ping is answered' : 'a ping is not answered';
      console.log(`of both ${ws.protocol} is taken, parts come back as ${back}, and ${ping}`);
      done();
    });
  });
}

function refused(protocols, name) {
  return new Promise((done) => {
    const ws = connect(protocols);
    ws.on('unexpected-response', (request, response) => {
      console.log(`${name}: refused with ${response.statusCode}`);
      request.destroy();
      done();
    });
    ws.on('open', () => {
      console.log(`${name}: taken by ${ws.protocol}`);
      ws.close();
      done();
    });
    ws.on('error', () => done());
  });
}

async function main() {
  await exchange();
  await refused([], 'no sub-protocol');
  await refused([another], 'another sub-protocol');
  await offerBoth();
}

main();
