#!/usr/bin/env node
// riichi-desk, the commands of the program of Linux wherever Node runs, but for those that --help names as not here.
import { closeSync, openSync, readFileSync, writeSync } from "node:fs";
import { isatty } from "node:tty";
import { answerLines, explain, explainJsonLines, explainLines, game, jsonLines, rulesOf, version } from "./riichi_desk.js";

const HELP = `Usage: riichi-desk COMMAND

Commands:
  win [--rules R] HAND KEY=VALUE..      prints what a winning hand is worth
  waits HAND [open=..]                  prints the kinds that complete a hand
  shape HAND [open=..] [seen=..]        prints how far a hand is from ready, and what brings it nearer
  line [--json] [--number] [--rules R] [--file FILE..]
                                        answers the lines of standard input or of files
  explain [--json] [--number] [--rules R] [--file FILE..] [LINE..]
                                        answers lines, and says below each answer why it is so
  score [--number] [--rules R] FILE..   answers files of lines, each a table
  game [--rules R] [FILE..]             keeps the points of games of four, once all lines are read

  --number    puts the number of its line before each answer
  --rules R   the rules of lines that are given no others: 1, 2, or with changes, as 1+red-fives-ura
  --workers N, --quiet   are taken and change nothing: one thread answers, and no progress is shown
  --version   the name and version of the library
A first line \`rules 2\` sets the rules of its text too. The file - is standard input.

Not here: need, seats, standings, study, replay; explain --all (explain --json has every reading); game --explain,
--json, --number and --sheet. The program for Linux on x86-64 has them, on Windows under WSL; the class Game of this
package has what a player needs, and why each is paid. help-codes, help-rules and help-yaku are tables of
NOTATION.md and RULES.md.

Exit status: 0 answered, 1 answered and something was refused, 2 wrong words, 3 input or output failed
`;

const MOST_PIECE = 1 << 20; // bytes of lines that are answered before the answers are written
const MOST_FILES = 64;
const ELSEWHERE = "the program for Linux on x86-64 has it, on Windows under WSL";
const PACE = ["--quiet", "--workers"];

// The commands with the options that they take.
const COMMANDS = {
  win: { options: ["--rules"], run: record },
  waits: { options: [], run: record },
  shape: { options: [], run: record },
  line: { options: ["--json", "--number", "--rules", "--file", ...PACE], run: lines },
  explain: { options: ["--json", "--number", "--rules", "--file"], run: lines },
  score: { options: ["--number", "--rules", ...PACE], run: score },
  game: { options: ["--rules"], run: games },
};

// What the program has and this has not: commands, and options of a command, each with where it is.
const ABSENT = {
  need: ELSEWHERE, seats: ELSEWHERE, standings: ELSEWHERE, study: ELSEWHERE, replay: ELSEWHERE,
  "help-codes": "NOTATION.md has what each refusal means",
  "help-rules": "RULES.md has the rules", "help-yaku": "RULES.md has the yaku",
  "explain --all": "explain --json has every reading",
  "game --explain": ELSEWHERE, "game --json": ELSEWHERE, "game --number": ELSEWHERE, "game --sheet": ELSEWHERE,
};

function stop(status, words) {
  process.stderr.write(words);
  process.exit(status);
}

const wrong = (word) => stop(2, `riichi-desk: ${word}?\n${HELP}`);

function stopIfAbsent(words) {
  if (ABSENT[words]) stop(2, `riichi-desk: ${words} is not here: ${ABSENT[words]}\n`);
}

// The words of a command without its options, and these.
function wordsOf(command, words) {
  const told = { command, rules: 1, rulesWord: "", json: false, isNumbered: false, isOfFiles: false, hasWorkers: false, rest: [] };
  for (let at = 0; at < words.length; at++) {
    const [word, next] = [words[at], words[at + 1] ?? ""];
    stopIfAbsent(`${command} ${word}`);
    if (!word.startsWith("-") || word === "-") told.rest.push(word);
    else if (!COMMANDS[command].options.includes(word)) wrong(word);
    else if (word === "--json") told.json = true;
    else if (word === "--number") told.isNumbered = true;
    else if (word === "--file") told.isOfFiles = true;
    else if (word === "--rules" && rulesOf(next)) [told.rules, told.rulesWord] = [rulesOf(next), words[++at]];
    else if (word === "--workers" && /^(\d|1[0-6])$/.test(next) && next !== "0") [told.hasWorkers, at] = [true, at + 1];
    else if (word !== "--quiet") wrong(word);
  }
  return told;
}

const nameOf = (file) => (file === "-" ? "standard input" : file);

// The bytes of a file, or of standard input; what its first bytes show is said.
function read(file) {
  let text;
  try {
    text = readFileSync(file === "-" ? 0 : file);
  } catch (failure) {
    stop(3, `riichi-desk: cannot read ${nameOf(file)}: ${failure.message}\n`);
  }
  const front = text.toString("hex", 0, 3);
  if (front === "efbbbf") {
    process.stderr.write(`riichi-desk: ${nameOf(file)}: a byte order mark stands before the first line, which is not read as it looks; save the text as UTF-8 without one (in Notepad \`UTF-8\`, not \`UTF-8 with BOM\`; in PowerShell \`Set-Content -Encoding ascii\`)\n`);
  } else if (/^(fffe|feff)/.test(front)) {
    process.stderr.write(`riichi-desk: ${nameOf(file)}: the text is UTF-16, and no line of it can be read; save it as UTF-8 (in Notepad \`UTF-8\`; in PowerShell \`Get-Content OLD | Set-Content -Encoding ascii NEW\`)\n`);
  }
  return text;
}

// A text without its first line where that sets the rules, and these.
function recordsOf(text, rules) {
  const end = text.indexOf(10) + 1 || text.length;
  const [, line, named] = /^( *rules +([12]) *)\r?\n?$/.exec(text.latin1Slice(0, end)) ?? [];
  return named && line.length <= 4096 ? { text: text.subarray(end), rules: Number(named), first: 2 } : { text, rules, first: 1 };
}

function write(words) {
  const bytes = Buffer.from(words);
  for (let at = 0; at < bytes.length; ) at += writeSync(1, bytes, at);
}

// The lines of a text, answered one by one.
function eachLine(text, call) {
  const told = [];
  for (let start = 0, end; start < text.length; start = end) {
    end = text.indexOf(10, start) + 1 || text.length;
    told.push(call(text.subarray(start, end)));
  }
  return told.join("");
}

// `call`, with the number of its line before each answer: of an object inside, as its first member. The next line has this number.
function numbered(call, isJson, number) {
  const behind = (answer) => (isJson ? `{"line":${number},${answer.slice(1)}` : `${number}:${answer}`);
  return (text, rules) => eachLine(text, (line) => {
    const answer = call(line, rules);
    const told = answer === "" ? "" : behind(answer);
    number++;
    return told;
  });
}

// Writes what `call` answers to the lines of a text, a piece at a time; the status is 1 where one was refused.
function tell(call, text, rules) {
  let isRefused = false;
  for (let start = 0, end; start < text.length; start = end) {
    end = text.indexOf(10, start + MOST_PIECE) + 1 || text.length;
    const told = call(text.subarray(start, end), rules);
    isRefused ||= /^((\d+:)?refused|\{("line":\d+,)?"answer":"refused")/m.test(told);
    write(told);
  }
  return Number(isRefused);
}

function callOf({ command, json }) {
  if (command === "explain") return json ? explainJsonLines : explainLines;
  return json ? jsonLines : answerLines;
}

// Answers a whole text; its first line may set the rules.
function tellText(asked, bytes) {
  const { text, rules, first } = recordsOf(bytes, asked.rules);
  const call = callOf(asked);
  return tell(asked.isNumbered ? numbered(call, asked.json, first) : call, text, rules);
}

// Says on a terminal below the answer to a line what its refusal means, or which command explains it.
function tellBeside(asked, line, isRefused) {
  const rules = asked.rulesWord === "" ? "" : `--rules ${asked.rulesWord} `;
  const told = isRefused ? explain(line, asked.rules).map((it) => `${it}\n`).join("") : `  why: riichi-desk explain ${rules}${line}\n`;
  process.stderr.write(told);
}

function record(asked) {
  if (asked.rest.length === 0) wrong(asked.command);
  const line = [asked.command, ...asked.rest].join(" ");
  const status = tell(answerLines, Buffer.from(line), asked.rules);
  if (isatty(2)) tellBeside(asked, line, status === 1);
  return status;
}

function lines(asked) {
  const { command, rest, isOfFiles } = asked;
  if (asked.hasWorkers && asked.isNumbered) wrong("--workers with --number");
  if (command === "line" && !isOfFiles && rest.length > 0) wrong(rest[0]);
  if (isOfFiles && rest.length === 0) wrong("--file");
  if (isOfFiles) return rest.map((file) => tellText(asked, read(file))).some((status) => status === 1) ? 1 : 0;
  if (rest.length === 0) return tellText(asked, read("-"));
  const isOne = ["win", "waits", "shape"].includes(rest[0]);
  return tellText(asked, Buffer.from(rest.join(isOne ? " " : "\n")));
}

// That each file can be opened is seen before anything is answered, and that there are no more than the proved program takes.
function score(asked) {
  const { rest: files, isNumbered } = asked;
  if (files.length === 0) wrong("score");
  if (files.length > MOST_FILES) stop(2, `riichi-desk: fault B1\n  ${files.length} files: \`score\` takes 64 at most; run it twice, or \`line --file\`, which takes any number\n`);
  for (const file of files) {
    try {
      closeSync(openSync(file));
    } catch (failure) {
      stop(3, `riichi-desk: cannot open ${file}: ${failure.message}\n`);
    }
  }
  let status = 0;
  files.forEach((file, number) => {
    const text = read(file);
    write(isNumbered ? `table ${number} ${file.replace(/[^ -~]/g, (it) => "?".repeat(Buffer.byteLength(it)))}\n` : `table ${number}\n`);
    status |= tellText(asked, text);
  });
  return status;
}

function games({ rest, rules }) {
  let status = 0;
  for (const file of rest.length > 0 ? rest : ["-"]) {
    const told = game(read(file), rules);
    status |= Number(/^refused/m.test(told));
    write(told);
  }
  return status;
}

const [command = "", ...words] = process.argv.slice(2);
let status = 0;
try {
  if (command === "--help" || words.includes("--help")) {
    write(HELP);
  } else if (command === "--version") {
    write(`${version()}\n`);
  } else if (Object.hasOwn(COMMANDS, command)) {
    status = COMMANDS[command].run(wordsOf(command, words));
  } else {
    stopIfAbsent(command);
    wrong(command);
  }
} catch (failure) {
  stop(3, `riichi-desk: ${failure.message}\n`);
}
process.exit(status);
