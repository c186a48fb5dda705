// Checks the extension in editors/vscode: its JSON, the regular expressions of its grammar and of its problem matchers, and its tasks.
//
//     node tests/editors.js LINES
//
// LINES is a file with what `occam --check --json` has printed, which the problem matchers have to read. Prints a line for each fault.
const fs = require("fs");
const path = require("path");
const Module = require("module");

const folder = path.join(__dirname, "..", "editors", "vscode");
const read = (name) => JSON.parse(fs.readFileSync(path.join(folder, name), "utf-8"));
const fault = (text) => console.log(text);
const { contributes, main } = read("package.json");

// ---- the grammar

const grammar = read(contributes.grammars[0].path);
read(contributes.languages[0].configuration);
const rules = [...grammar.patterns, ...Object.values(grammar.repository)].filter((rule) => rule.match || rule.begin);
const regexps = rules.map((rule) => [rule.name, new RegExp(rule.match || rule.begin, "g")]);
for (const { end } of rules) {
  new RegExp(end || "");
}
// words, and what colours the whole of each
const WORDS = {
  "-- a comment": "comment.line.double-dash",
  SEQ: "keyword.control",
  CHAN: "storage.type",
  TRUE: "constant.language.boolean",
  AFTER: "keyword.operator.word",
  TIMER: "invalid.illegal.reserved",
  "'a'": "constant.character",
  "'*n'": "constant.character",
  "'*#0A'": "constant.character",
  42: "constant.numeric.decimal",
  "#FF": "constant.numeric.hex",
  ":=": "keyword.operator",
  "*n": "constant.character.escape",
  seq: undefined,
  "SEQ.1": undefined,
  a1: undefined,
};
for (const [word, wanted] of Object.entries(WORDS)) {
  const found = regexps.find(([, regexp]) => [...word.matchAll(regexp)].some((match) => match[0] === word));
  const name = found && found[0].replace(/\.occam$/, "");
  if (name !== wanted) {
    fault(`${word} is coloured as ${name}, and not as ${wanted}`);
  }
}

// ---- the problem matchers

const lines = fs.readFileSync(process.argv[2], "utf-8").split("\n").filter((line) => line);
for (const line of lines) {
  const said = JSON.parse(line);
  const found = contributes.problemMatchers.filter(({ pattern }) => new RegExp(pattern.regexp).test(line));
  if (found.length !== 1) {
    fault(`${found.length} problem matchers read ${line}`);
    continue;
  }
  const { pattern, severity } = found[0];
  const match = new RegExp(pattern.regexp).exec(line);
  const has = (group, name) => {
    if (JSON.parse(`"${match[pattern[group]]}"`) !== String(said[name])) {
      fault(`${group} is ${match[pattern[group]]} in ${line}`);
    }
  };
  has("file", "file");
  has("line", "line");
  has("column", "column");
  has("endColumn", "end");
  if (said.kind === "refused") {
    has("code", "number");
  }
  if (severity !== (said.kind === "refused" ? "error" : "warning")) {
    fault(`the severity of ${line} is ${severity}`);
  }
}

// ---- the tasks, made over a stand-in for the editor

const provided = {};
const editor = {
  ShellExecution: class { constructor(program, words) { this.line = [program, ...words].join(" "); } },
  Task: class { constructor(definition, scope, name, source, execution, matchers) { Object.assign(this, { definition, name, execution, matchers }); } },
  TaskScope: { Workspace: 2 },
  TaskGroup: { Build: "build" },
  tasks: { registerTaskProvider: (type, provider) => ((provided[type] = provider), {}) },
};
const load = Module._load;
Module._load = (name, ...rest) => (name === "vscode" ? editor : load(name, ...rest));
require(path.join(folder, main)).activate({ subscriptions: [] });
const tasks = provided.occam.provideTasks();
const names = contributes.taskDefinitions[0].properties.task.enum;
if (tasks.map((task) => task.name).join() !== names.join()) {
  fault(`the tasks are ${tasks.map((task) => task.name)}`);
}
for (const task of tasks) {
  const again = provided.occam.resolveTask({ definition: task.definition });
  if (again.execution.line !== task.execution.line || !task.execution.line.startsWith("occam ")) {
    fault(`the task ${task.name} is ${task.execution.line} and ${again.execution.line}`);
  }
  for (const matcher of task.matchers) {
    if (!contributes.problemMatchers.some((one) => `$${one.name}` === matcher)) {
      fault(`there is no problem matcher ${matcher}`);
    }
  }
}
