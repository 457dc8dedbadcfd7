// Prints what the module of the player gives for each text of a folder, as JSON: node outputs.mjs FOLDER MODULE
//
// A script is NAME.script, and a record NAME.record. The output has for each name and each word a status and bytes in hexadecimal.
import { readFileSync, readdirSync } from "node:fs";
import { FORM, Player } from "../web/player.js";

const [folder, module] = process.argv.slice(2);
const player = await Player.load(readFileSync(module));
const calls = {
  script: {
    play: (script) => player.play(script),
    svg: (script) => player.draw(FORM.SVG, script),
    text: (script) => player.draw(FORM.TEXT, script),
    explain: (script) => player.draw(FORM.EXPLAINED, script),
    json: (script) => player.trace(0, script),
    why: (script) => player.explain(script),
  },
  record: {
    check: (record) => player.check(record, false),
    order: (record) => player.check(record, true),
  },
};

const given = {};
for (const file of readdirSync(folder)) {
  const [name, kind] = file.split(".");
  const text = readFileSync(`${folder}/${file}`);
  given[name] = {};
  for (const [word, call] of Object.entries(calls[kind])) {
    const { status, bytes } = call(text);
    given[name][word] = [status, Buffer.from(bytes).toString("hex")];
  }
}
console.log(JSON.stringify(given));
