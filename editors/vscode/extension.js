// The extension: starts the language server, and hands on what each side says.
'use strict';
const fs = require('fs');
const path = require('path');
const vscode = require('vscode');
const { Connection } = require('./connection.js');
const { Providers } = require('./providers.js');

const LANGUAGES = ['lsl', 'lsl-world'];
const MOST_STARTS = 5;

// The folder of Dishhollow: the one that the settings name, or the one in which this extension is.
function folder() {
  const named = vscode.workspace.getConfiguration('lsl').get('folder');
  return named || path.join(fs.realpathSync(__dirname), '..', '..');
}

function program() {
  return path.join(folder(), 'lsl');
}

class Extension {
  constructor(context) {
    this.context = context;
    this.starts = 0;
    this.diagnostics = vscode.languages.createDiagnosticCollection('lsl');
    context.subscriptions.push(this.diagnostics);
  }

  async start() {
    this.starts += 1;
    const root = vscode.workspace.workspaceFolders?.[0]?.uri;
    const told = { notified: (method, params) => this.notified(method, params), ended: (error) => this.ended(error) };
    this.connection = new Connection(program(), ['server'], root?.fsPath ?? folder(), told);
    const capabilities = { textDocument: { completion: { completionItem: { snippetSupport: true } } } };
    const answer = await this.connection.ask('initialize', {
      processId: process.pid, rootUri: root?.toString() ?? null, capabilities,
    });
    this.connection.notify('initialized', {});
    this.legend = answer.capabilities.semanticTokensProvider.legend;
    vscode.workspace.textDocuments.forEach((it) => this.opened(it));
  }

  notified(method, params) {
    if (method === 'textDocument/publishDiagnostics') {
      const uri = vscode.Uri.parse(params.uri);
      this.diagnostics.set(uri, params.diagnostics.map((it) => this.providers.diagnostic(it)));
    } else if (method === 'window/showMessage' && params.type < 3) {
      vscode.window.showWarningMessage(params.message);
    }
  }

  ended(error) {
    this.diagnostics.clear();
    if (this.isClosed) return;
    if (this.starts < MOST_STARTS && !error.code) this.start().catch(() => {});
    else vscode.window.showErrorMessage(`The LSL server '${program()} server' doesn't run: ${error.message}`);
  }

  isOurs(document) {
    return LANGUAGES.includes(document.languageId);
  }

  opened(document) {
    if (!this.isOurs(document)) return;
    const item = { uri: document.uri.toString(), languageId: document.languageId, version: document.version };
    this.connection.notify('textDocument/didOpen', { textDocument: { ...item, text: document.getText() } });
  }

  changed({ document, contentChanges }) {
    if (!this.isOurs(document)) return;
    const textDocument = { uri: document.uri.toString(), version: document.version };
    // The changes are given from the last to the first, and none moves another.
    const changes = contentChanges.map(({ range, text }) => ({ range: plain(range), text }));
    this.connection.notify('textDocument/didChange', { textDocument, contentChanges: changes });
  }

  noticed(method) {
    return (document) => {
      if (this.isOurs(document)) this.connection.notify(method, { textDocument: { uri: document.uri.toString() } });
    };
  }

  follow() {
    const { workspace } = vscode;
    this.context.subscriptions.push(
      workspace.onDidOpenTextDocument((it) => this.opened(it)),
      workspace.onDidChangeTextDocument((it) => this.changed(it)),
      workspace.onDidSaveTextDocument(this.noticed('textDocument/didSave')),
      workspace.onDidCloseTextDocument(this.noticed('textDocument/didClose')),
      vscode.commands.registerCommand('lsl.play', (uri) => this.play(uri)),
      vscode.commands.registerCommand('lsl.debug', (uri, words) => this.debug(uri, words)),
      vscode.debug.registerDebugAdapterDescriptorFactory('lsl', {
        createDebugAdapterDescriptor: () => new vscode.DebugAdapterExecutable(program(), ['debug', '--adapter']),
      }),
      vscode.debug.registerDebugConfigurationProvider('lsl', { resolveDebugConfiguration: configured }),
    );
  }

  // Debugs a file, with the words of `lsl play` for what happens to it.
  async debug(uri, words) {
    const document = vscode.workspace.textDocuments.find((it) => it.uri.toString() === uri);
    if (document?.isDirty) await document.save();
    const program = vscode.Uri.parse(uri).fsPath;
    const asked = { type: 'lsl', request: 'launch', name: path.basename(program), program, args: words ?? [] };
    await vscode.debug.startDebugging(vscode.workspace.workspaceFolders?.[0], asked);
  }

  // Plays a file in a terminal, where one can type what happens to it.
  async play(uri) {
    const document = vscode.workspace.textDocuments.find((it) => it.uri.toString() === uri);
    if (document?.isDirty) await document.save();
    const file = vscode.Uri.parse(uri).fsPath;
    const words = file.endsWith('.world') ? ['replay', '--show', file] : ['play', file];
    const cwd = vscode.workspace.workspaceFolders?.[0]?.uri.fsPath;
    vscode.window.createTerminal({ name: path.basename(file), shellPath: program(), shellArgs: words, cwd }).show();
  }

  async close() {
    this.isClosed = true;
    await this.connection.close();
  }
}

// What is debugged where nothing is configured: the file in the editor, in the workspace's folder.
function configured(folder, config) {
  const document = vscode.window.activeTextEditor?.document;
  const file = LANGUAGES.includes(document?.languageId) ? document.uri.fsPath : undefined;
  const asked = { type: 'lsl', request: 'launch', name: 'LSL', program: file, ...config };
  return asked.program && { cwd: folder?.uri.fsPath, ...asked };
}

function plain({ start, end }) {
  const position = ({ line, character }) => ({ line, character });
  return { start: position(start), end: position(end) };
}

let extension;

async function activate(context) {
  extension = new Extension(context);
  extension.providers = new Providers(extension);
  await extension.start();
  extension.follow();
  extension.providers.register(context, LANGUAGES);
}

module.exports = { activate, deactivate: () => extension?.close() };
