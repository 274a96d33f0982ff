#!/usr/bin/env node
"use strict";

const { once } = require("node:events");
const { fstatSync } = require("node:fs");
const { scoreLine, version } = require("../cvss.js");

const USAGE = `usage: cvss-proved [--allow-incomplete] VECTOR..
       cvss-proved [--allow-incomplete] < list

Prints for each vector, or for each line of standard input, the canonical text,
the score with all metrics in the vector, and the severity; or why it is
rejected. The status is 1 if a vector is rejected, and 2 after a usage or I/O
error.

  --allow-incomplete  accepts v3 vectors that lack base metrics

  cvss-proved CVSS:3.1/AV:N/AC:L/PR:N/UI:N/S:U/C:H/I:H/A:H
`;
const [NEWLINE, RETURN] = [10, 13];

function printed(text, options) {
  const line = scoreLine(text, options);
  if (line.startsWith("error: ")) process.exitCode = 1;
  return `${line}\n`;
}

// The line without the carriage return that may end it.
function lineOf(bytes) {
  return bytes[bytes.length - 1] === RETURN ? bytes.subarray(0, -1) : bytes;
}

async function print(text) {
  if (!process.stdout.write(text)) await once(process.stdout, "drain");
}

async function scoreLines(input, options) {
  let rest = [];
  for await (const chunk of input) {
    const lines = [];
    let begin = 0;
    for (let end = chunk.indexOf(NEWLINE); end >= 0; end = chunk.indexOf(NEWLINE, begin)) {
      lines.push(printed(lineOf(Buffer.concat([...rest, chunk.subarray(begin, end)])), options));
      rest = [];
      begin = end + 1;
    }
    if (begin < chunk.length) rest.push(chunk.subarray(begin));
    await print(lines.join(""));
  }
  const last = Buffer.concat(rest);
  if (last.length > 0) await print(printed(lineOf(last), options));
}

function fail(error) {
  // a reader that closes the pipe has read enough
  if (error.code !== "EPIPE") process.stderr.write(`cvss-proved: ${error.message}\n`);
  process.exit(2);
}

async function main(words) {
  const allowIncomplete = words[0] === "--allow-incomplete";
  const [first, ...others] = words.slice(allowIncomplete ? 1 : 0);
  const options = { allowIncomplete };
  if (first === "--help" || first === "-h") await print(USAGE);
  else if (first === "--version") await print(`${version}\n`);
  else if (first?.startsWith("-")) throw new Error(`unknown option '${first}'; see 'cvss-proved --help'`);
  else if (first !== undefined) await print([first, ...others].map((text) => printed(text, options)).join(""));
  else if (process.stdin.isTTY) throw new Error("no vector given; see 'cvss-proved --help'");
  // Node would read a directory as an empty list
  else if (fstatSync(0).isDirectory()) throw new Error("standard input is a directory");
  else await scoreLines(process.stdin, options);
}

process.stdout.on("error", fail);
main(process.argv.slice(2)).catch(fail);
