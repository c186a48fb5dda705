// Tasks for the open occam source: one checks it, one runs it, and one explores all its schedules.
const vscode = require("vscode");

const TASKS = [
  { name: "check", words: ["--check", "--json"], matchers: ["$occam", "$occam-unchecked"] },
  { name: "run", words: [], matchers: [] },
  { name: "explore", words: ["--explore"], matchers: [] },
];

function taskOf(one, definition) {
  const run = new vscode.ShellExecution("occam", [...one.words, "${file}"]);
  const task = new vscode.Task(definition, vscode.TaskScope.Workspace, one.name, "occam", run, one.matchers);
  if (one.name === "check") {
    task.group = vscode.TaskGroup.Build;
  }
  return task;
}

const provider = {
  provideTasks: () => TASKS.map((one) => taskOf(one, { type: "occam", task: one.name })),
  resolveTask: (task) => {
    const one = TASKS.find((it) => it.name === task.definition.task);
    return one && taskOf(one, task.definition);
  },
};

exports.activate = (context) => {
  context.subscriptions.push(vscode.tasks.registerTaskProvider("occam", provider));
};
