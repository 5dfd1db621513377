// Starts the extension of editors/vscode in node with a small stand-in for the module `vscode`, and plays the editor.
// It writes a line for each thing that it saw. The words are the repository's folder and a folder for the trial's files.
'use strict';
const fs = require('fs');
const path = require('path');
const Module = require('module');
const { pathToFileURL, fileURLToPath } = require('url');

const [top, room] = process.argv.slice(2);
const say = (...words) => console.log(words.join(' '));

class Position { constructor(line, character) { Object.assign(this, { line, character }); } }
class Range { constructor(start, end) { Object.assign(this, { start, end }); } }
class Holder { constructor(...given) { this.given = given; } }
class Uri {
  constructor(text) { this.text = text; }
  static parse(text) { return new Uri(text); }
  static file(name) { return new Uri(pathToFileURL(name).href); }
  get fsPath() { return fileURLToPath(this.text); }
  toString() { return this.text; }
}
class WorkspaceEdit {
  constructor() { this.all = new Map(); }
  set(uri, edits) { this.all.set(uri.toString(), edits); }
}
class TextEdit { constructor(range, newText) { Object.assign(this, { range, newText }); } }
class CompletionItem { constructor(label, kind) { Object.assign(this, { label, kind }); } }

const handlers = {};
const providers = {};
const found = new Map();
const shown = [];
const event = (name) => (handler) => { handlers[name] = handler; return { dispose() {} }; };
const settings = { get: () => '' };

const languages = new Proxy({
  createDiagnosticCollection: () => ({
    set: (uri, all) => found.set(uri.toString(), all), clear: () => found.clear(), dispose() {},
  }),
}, {
  get: (own, name) => own[name] ?? ((_, provider) => { Object.assign(providers, provider); return { dispose() {} }; }),
});

const vscode = new Proxy({
  Position, Range, Uri, WorkspaceEdit, TextEdit, CompletionItem, languages,
  Location: class { constructor(uri, range) { Object.assign(this, { uri, range }); } },
  Diagnostic: class { constructor(range, message, severity) { Object.assign(this, { range, message, severity }); } },
  MarkdownString: class { constructor(value) { this.value = value; } },
  SnippetString: class { constructor(value) { this.value = value; } },
  Hover: class { constructor(contents) { this.contents = contents; } },
  CodeActionKind: { QuickFix: 'quickfix' }, FoldingRangeKind: { Comment: 1 }, InlayHintKind: { Parameter: 2 },
  workspace: {
    textDocuments: [], workspaceFolders: [{ uri: Uri.file(room) }], getConfiguration: () => settings,
    onDidOpenTextDocument: event('open'), onDidChangeTextDocument: event('change'),
    onDidSaveTextDocument: event('save'), onDidCloseTextDocument: event('close'),
  },
  window: {
    showErrorMessage: (it) => say('error', it), showWarningMessage: (it) => say('warning', it),
    createTerminal: (it) => { shown.push(it); return { show() {} }; },
  },
  debug: {
    registerDebugAdapterDescriptorFactory: (type, it) => { handlers[`adapter ${type}`] = it; return { dispose() {} }; },
    registerDebugConfigurationProvider: (type, it) => { handlers[`configure ${type}`] = it; return { dispose() {} }; },
    startDebugging: async (folder, asked) => { shown.push(asked); return true; },
  },
  commands: { registerCommand: (name, handler) => { handlers[name] = handler; return { dispose() {} }; } },
}, { get: (own, name) => own[name] ?? Holder });

const load = Module._load;
Module._load = (name, ...more) => (name === 'vscode' ? vscode : load(name, ...more));

class Document {
  constructor(name, languageId) {
    Object.assign(this, { uri: Uri.file(name), languageId, version: 1, isDirty: false });
    this.lines = fs.readFileSync(name, 'utf8').split('\n');
  }
  getText() { return this.lines.join('\n'); }
  place({ line, character }) { return this.lines.slice(0, line).join('\n').length + (line ? 1 : 0) + character; }
  // What the editor does with edits: from the last to the first, and then it says so.
  apply(edits) {
    const sorted = [...edits].sort((a, b) => this.place(b.range.start) - this.place(a.range.start));
    let text = this.getText();
    for (const { range, newText } of sorted) {
      text = text.slice(0, this.place(range.start)) + newText + text.slice(this.place(range.end));
    }
    this.lines = text.split('\n');
    this.version += 1;
    handlers.change({ document: this, contentChanges: sorted.map((it) => ({ range: it.range, text: it.newText })) });
  }
}

async function until(what, holds) {
  for (let count = 0; count < 1200 && !holds(); ++count) await new Promise((next) => setTimeout(next, 25));
  say(what, holds());
}

const at = (line, character) => new Position(line, character);

async function play() {
  const extension = require(path.join(top, 'editors', 'vscode', 'extension.js'));
  const document = new Document(path.join(room, 'trial.lsl'), 'lsl');
  vscode.workspace.textDocuments.push(document);
  const uri = document.uri.toString();
  await extension.activate({ subscriptions: [] });
  await until('fault', () => found.get(uri)?.length > 0);
  const [fault] = found.get(uri);
  const { start, end } = fault.range;
  say('fault', start.line, start.character, end.character, fault.code, fault.severity);
  document.apply([new TextEdit(new Range(at(10, 8), at(10, 13)), 'llSay')]);
  await until('mended', () => found.get(uri)?.length === 0);
  say('hover', (await providers.provideHover(document, at(11, 9))).contents.value.replace(/\n/g, ' / '));
  say('signature', (await providers.provideSignatureHelp(document, at(10, 17))).activeParameter);
  say('definition', (await providers.provideDefinition(document, at(11, 20))).range.start.line);
  say('references', (await providers.provideReferences(document, at(11, 20), { includeDeclaration: true })).length);
  const items = await providers.provideCompletionItems(document, at(11, 8));
  say('completion', items.find((it) => it.label === 'llSay').insertText.value);
  const renamed = await providers.provideRenameEdits(document, at(11, 20), 'words');
  document.apply(renamed.all.get(uri));
  say('rename', document.lines[3]);
  await providers.provideRenameEdits(document, at(11, 20), 'llSay').catch((error) => say('refused', error.message));
  document.apply([new TextEdit(new Range(at(11, 0), at(11, 8)), '\t')]);
  document.apply(await providers.provideDocumentFormattingEdits(document, { tabSize: 4, insertSpaces: true }));
  say('formatted', JSON.stringify(document.lines[11]));
  say('symbols', (await providers.provideDocumentSymbols(document)).map((it) => it.given[0]).join(' '));
  say('folds', (await providers.provideFoldingRanges(document)).length);
  say('tokens', (await providers.provideDocumentSemanticTokens(document)).given[0].length % 5);
  say('hints', (await providers.provideInlayHints(document, new Range(at(0, 0), at(14, 0)))).map((it) => it.given[1]));
  const [called] = await providers.prepareCallHierarchy(document, at(3, 9));
  const calls = await providers.provideCallHierarchyIncomingCalls(called);
  say('calls', calls.map((it) => it.given[0].given[1]).join(' '), calls[0].given[1].length);
  document.apply([new TextEdit(new Range(at(12, 0), at(12, 4)), '')]);
  const options = { tabSize: 4, insertSpaces: true };
  const typed = await providers.provideOnTypeFormattingEdits(document, at(12, 1), '}', options);
  say('typed', typed[0].range.start.line, JSON.stringify(typed[0].newText));
  const lenses = (await providers.provideCodeLenses(document)).map((it) => it.given[1]);
  const [lens] = lenses;
  await handlers[lens.command](...lens.arguments);
  say('played', path.basename(shown[0].shellPath), shown[0].shellArgs[0], path.basename(shown[0].shellArgs[1]));
  const touched = lenses.find((it) => it.command === 'lsl.debug' && it.arguments[1].length > 0);
  await handlers[touched.command](...touched.arguments);
  say('debugged', shown[1].type, path.basename(shown[1].program), shown[1].args.join(' '));
  const { given } = handlers['adapter lsl'].createDebugAdapterDescriptor();
  say('adapter', path.basename(given[0]), given[1].join(' '));
  const [root] = vscode.workspace.workspaceFolders;
  const asked = handlers['configure lsl'].resolveDebugConfiguration(root, { program: 'a' });
  say('configured', asked.type, asked.program, asked.cwd === room);
  handlers.close(document);
  await extension.deactivate();
  say('ended');
}

play().catch((error) => { say(error.stack); process.exit(1); });
