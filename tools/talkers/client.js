// A client of a process that stays, by child_process of Node.js: MODE ASKED TOLD WORD.. (tools/talk_clients says which modes there are).
const { spawn } = require('node:child_process');
const { existsSync, readFileSync } = require('node:fs');

const HEAD = 5, REQUEST = 10;
const [mode, askedName, toldName, ...words] = process.argv.slice(2);
const asked = readFileSync(askedName);
const child = spawn(words[0], words.slice(1), { stdio: ['pipe', 'pipe', 'inherit'] });
let want = 0, right = true;

child.on('close', (status) => { process.exitCode = right && status === want ? 0 : 1; });
child.stdin.on('error', () => {});

// Calls `each` with each whole frame that comes, and `last` at the end with the bytes behind them.
function frames(each, last) {
  let parts = [], size = 0;
  child.stdout.on('data', (piece) => {
    parts.push(piece);
    size += piece.length;
    if (size < HEAD) return;
    let all = Buffer.concat(parts);
    while (all.length >= HEAD && all.length >= HEAD + all.readUInt32BE(1)) {
      const length = HEAD + all.readUInt32BE(1);
      each(all.subarray(0, length));
      all = all.subarray(length);
    }
    parts = [all];
    size = all.length;
  });
  child.stdout.on('end', () => last(size));
}

if (mode === 'ask' || mode === 'die') {
  const told = readFileSync(toldName);
  let at = 0, place = 0;
  frames((frame) => {
    right = right && frame.equals(told.subarray(place, place + frame.length));
    place += frame.length;
    at += REQUEST;
    if (mode === 'die') child.stdin.write(asked.subarray(at, at + 3), () => process.kill(process.pid, 'SIGKILL'));
    else if (at < asked.length) child.stdin.write(asked.subarray(at, at + REQUEST));
    else child.stdin.end();
  }, (left) => { right = right && left === 0 && place === told.length; });
  child.stdin.write(asked.subarray(0, REQUEST));
} else if (mode === 'attend') {
  const told = readFileSync(toldName);
  let at = 0, text = '', whole = 0;

  // How many bytes of the text in front are the lines of a namespace, whose first says how many follow; none where they aren't all there.
  const lines = () => {
    let end = text.indexOf('\n') + 1;
    const words = text.slice(0, end - 1).split(' ');
    for (let left = words.at(-2) === 'blobs' ? Number(words.at(-1)) : 0; end && left; left--) end = text.indexOf('\n', end) + 1;
    return end;
  };

  // Writes frames up to the next answer, whose lines it then waits for.
  const next = () => {
    let kind = '';
    while (at < asked.length && kind !== 'N') {
      const size = HEAD + asked.readUInt32BE(at + 1);
      kind = String.fromCharCode(asked[at]);
      child.stdin.write(asked.subarray(at, at + size));
      at += size;
    }
    if (kind !== 'N') child.stdin.end();
  };

  child.stdout.on('data', (piece) => {
    text += piece.toString('latin1');
    const end = lines();
    if (!end) return;
    right = right && end === text.length && text === told.toString('latin1', whole, whole + end);
    whole += end;
    text = '';
    next();
  });
  child.stdout.on('end', () => { right = right && !text && whole === told.length; });
  next();
} else if (mode === 'pour' || mode === 'feed') {
  const parts = [];
  child.stdout.on('data', (piece) => parts.push(piece));
  child.stdout.on('end', () => { right = Buffer.concat(parts).equals(readFileSync(toldName)); });
  child.stdin.end(asked);
} else {
  want = 4;
  child.stdin.write(asked);
  const wait = setInterval(() => {
    if (!existsSync(toldName)) return;
    clearInterval(wait);
    child.stdout.destroy();
  }, 50);
}
