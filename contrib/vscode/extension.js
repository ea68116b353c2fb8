// Formats BUILD and .bzl files by buildifier, which takes the text from standard input and gives the formatted one on standard output.
const { execFile } = require("child_process");
const vscode = require("vscode");

// what the files of each language are for buildifier
const TYPES = { "bazel-build": "build", "bazel-bzl": "bzl" };

function formatted(text, type) {
  return new Promise((resolve, reject) => {
    const child = execFile("buildifier", [`--type=${type}`], { maxBuffer: 1 << 26 }, (fault, output, refusal) =>
      fault ? reject(new Error(refusal.split("\n")[0] || fault.message)) : resolve(output)
    );
    child.stdin.on("error", () => {}); // what becomes of the program is reported above
    child.stdin.end(text);
  });
}

const providerOf = (type) => ({
  async provideDocumentFormattingEdits(document) {
    const text = document.getText();
    try {
      const whole = new vscode.Range(document.positionAt(0), document.positionAt(text.length));
      return [vscode.TextEdit.replace(whole, await formatted(text, type))];
    } catch (fault) {
      vscode.window.showWarningMessage(`buildifier: ${fault.message}`);
      return [];
    }
  },
});

exports.activate = (context) => {
  for (const [language, type] of Object.entries(TYPES)) {
    context.subscriptions.push(vscode.languages.registerDocumentFormattingEditProvider(language, providerOf(type)));
  }
};
