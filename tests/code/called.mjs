// Calls functions of the pages outside a browser. Each line of the input is [module, function, calls], of which each call is a list of
// words; each line of the output is what came of them. Bytes are given as { base64 }. Without a function it is all that the module gives.
import { webcrypto } from 'node:crypto';
import { createInterface } from 'node:readline';
import { pathToFileURL } from 'node:url';

const folder = pathToFileURL(`${process.argv[2]}/`);
const read = (word) => (word?.base64 === undefined ? word : new Uint8Array(Buffer.from(word.base64, 'base64')));

// (node 18 has it by its module alone)
globalThis.crypto ??= webcrypto;

for await (const line of createInterface({ input: process.stdin })) {
  const [module, name, calls] = JSON.parse(line);
  const all = await import(new URL(`${module}.js`, folder));
  const given = name ? [] : [{ ...all }];
  for (const words of calls) given.push(await all[name](...words.map(read)) ?? null);
  console.log(JSON.stringify(given));
}
