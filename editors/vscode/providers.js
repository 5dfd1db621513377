// What VS Code asks for, and the server's answers in its classes.
'use strict';
const vscode = require('vscode');

const position = ({ line, character }) => ({ line, character });
const place = ({ line, character }) => new vscode.Position(line, character);
const range = ({ start, end }) => new vscode.Range(place(start), place(end));
const plain = ({ start, end }) => ({ start: position(start), end: position(end) });
const location = ({ uri, range: it }) => new vscode.Location(vscode.Uri.parse(uri), range(it));
const markdown = (it) => new vscode.MarkdownString(it.value);
const edit = (it) => new vscode.TextEdit(range(it.range), it.newText);

function workspaceEdit({ changes }) {
  const made = new vscode.WorkspaceEdit();
  for (const [uri, edits] of Object.entries(changes)) made.set(vscode.Uri.parse(uri), edits.map(edit));
  return made;
}

function symbol(it) {
  // The protocol counts kinds from 1, and VS Code from 0.
  const places = [range(it.range), range(it.selectionRange)];
  const made = new vscode.DocumentSymbol(it.name, it.detail ?? '', it.kind - 1, ...places);
  made.children = (it.children ?? []).map(symbol);
  return made;
}

function completion(it) {
  const made = new vscode.CompletionItem(it.label, it.kind - 1);
  made.detail = it.detail;
  made.documentation = it.documentation && markdown(it.documentation);
  if (it.insertText) made.insertText = new vscode.SnippetString(it.insertText);
  return made;
}

function signature({ signatures, activeSignature, activeParameter }) {
  const made = new vscode.SignatureHelp();
  made.signatures = signatures.map((it) => {
    const row = new vscode.SignatureInformation(it.label, it.documentation && markdown(it.documentation));
    row.parameters = it.parameters.map((one) => new vscode.ParameterInformation(one.label));
    return row;
  });
  Object.assign(made, { activeSignature, activeParameter });
  return made;
}

function selection(it) {
  return new vscode.SelectionRange(range(it.range), it.parent && selection(it.parent));
}

function callItem(it) {
  const places = [range(it.range), range(it.selectionRange)];
  const made = new vscode.CallHierarchyItem(it.kind - 1, it.name, '', vscode.Uri.parse(it.uri), ...places);
  return Object.assign(made, { asked: it });
}

class Providers {
  constructor(extension) {
    this.extension = extension;
  }

  // The server's answer about a document, or null where it gives none.
  async ask(method, document, more, token) {
    const params = { textDocument: { uri: document.uri.toString() }, ...more };
    try {
      return await this.extension.connection.ask(`textDocument/${method}`, params, token);
    } catch {
      return null;
    }
  }

  async list(make, ...asked) {
    return ((await this.ask(...asked)) ?? []).map(make);
  }

  at(method, make) {
    return async (document, where, token) => {
      const answer = await this.ask(method, document, { position: position(where) }, token);
      return answer === null ? null : make(answer);
    };
  }

  // The calls of a function, from it or to it.
  async calls(method, end, { asked }) {
    const found = await this.extension.connection.ask(`callHierarchy/${method}`, { item: asked }).catch(() => []);
    const made = end === 'from' ? vscode.CallHierarchyIncomingCall : vscode.CallHierarchyOutgoingCall;
    return found.map((it) => new made(callItem(it[end]), it.fromRanges.map(range)));
  }

  diagnostic(it) {
    const made = new vscode.Diagnostic(range(it.range), it.message, it.severity - 1);
    Object.assign(made, { code: it.code, source: it.source });
    made.relatedInformation = (it.relatedInformation ?? []).map(
      (one) => new vscode.DiagnosticRelatedInformation(location(one.location), one.message),
    );
    return made;
  }

  action(it) {
    const made = new vscode.CodeAction(it.title, vscode.CodeActionKind.QuickFix);
    made.edit = workspaceEdit(it.edit);
    made.diagnostics = it.diagnostics.map((one) => this.diagnostic(one));
    made.isPreferred = it.isPreferred;
    return made;
  }

  // A rename that is refused is to say why.
  async rename(document, where, newName) {
    const textDocument = { uri: document.uri.toString() };
    const params = { textDocument, position: position(where), newName };
    return workspaceEdit(await this.extension.connection.ask('textDocument/rename', params));
  }

  async prepareRename(document, where) {
    const params = { textDocument: { uri: document.uri.toString() }, position: position(where) };
    const answer = await this.extension.connection.ask('textDocument/prepareRename', params);
    if (!answer) throw new Error('there is no name here');
    return { range: range(answer.range), placeholder: answer.placeholder };
  }

  register(context, languages) {
    const { languages: all } = vscode;
    const selector = languages.map((language) => ({ language }));
    const [list, at] = [this.list.bind(this), this.at.bind(this)];
    const references = (document, where, context_) => list(location, 'references', document, {
      position: position(where), context: { includeDeclaration: context_.includeDeclaration },
    });
    const highlight = (it) => new vscode.DocumentHighlight(range(it.range), (it.kind ?? 1) - 1);
    const fold = (it) => new vscode.FoldingRange(it.startLine, it.endLine, it.kind && vscode.FoldingRangeKind.Comment);
    const tokens = (it) => new vscode.SemanticTokens(new Uint32Array(it.data));
    const lens = (it) => new vscode.CodeLens(range(it.range), it.command);
    const link = (it) => new vscode.DocumentLink(range(it.range), vscode.Uri.parse(it.target));
    const kinds = this.extension.legend;
    const added = [
      all.registerHoverProvider(selector, {
        provideHover: at('hover', (it) => new vscode.Hover(markdown(it.contents), range(it.range))),
      }),
      all.registerCompletionItemProvider(selector, {
        provideCompletionItems: at('completion', (it) => it.items.map(completion)),
      }, '@'),
      all.registerSignatureHelpProvider(selector, { provideSignatureHelp: at('signatureHelp', signature) }, '(', ','),
      all.registerDefinitionProvider(selector, { provideDefinition: at('definition', location) }),
      all.registerReferenceProvider(selector, { provideReferences: references }),
      all.registerDocumentHighlightProvider(selector, {
        provideDocumentHighlights: at('documentHighlight', (it) => it.map(highlight)),
      }),
      all.registerDocumentSymbolProvider(selector, {
        provideDocumentSymbols: (it) => list(symbol, 'documentSymbol', it, {}),
      }),
      all.registerFoldingRangeProvider(selector, {
        provideFoldingRanges: (it) => list(fold, 'foldingRange', it, {}),
      }),
      all.registerSelectionRangeProvider(selector, {
        provideSelectionRanges: (it, places) =>
          list(selection, 'selectionRange', it, { positions: places.map(position) }),
      }),
      all.registerDocumentFormattingEditProvider(selector, {
        provideDocumentFormattingEdits: (it, options) => list(edit, 'formatting', it, { options }),
      }),
      all.registerDocumentRangeFormattingEditProvider(selector, {
        provideDocumentRangeFormattingEdits: (it, part, options) =>
          list(edit, 'rangeFormatting', it, { range: plain(part), options }),
      }),
      all.registerOnTypeFormattingEditProvider(selector, {
        provideOnTypeFormattingEdits: (it, where, ch, options) =>
          list(edit, 'onTypeFormatting', it, { position: position(where), ch, options }),
      }, '}'),
      all.registerCallHierarchyProvider(selector, {
        prepareCallHierarchy: at('prepareCallHierarchy', (it) => it.map(callItem)),
        provideCallHierarchyIncomingCalls: (it) => this.calls('incomingCalls', 'from', it),
        provideCallHierarchyOutgoingCalls: (it) => this.calls('outgoingCalls', 'to', it),
      }),
      all.registerRenameProvider(selector, {
        prepareRename: (it, where) => this.prepareRename(it, where),
        provideRenameEdits: (it, where, name) => this.rename(it, where, name),
      }),
      all.registerCodeActionsProvider(selector, {
        provideCodeActions: (it, part) => list((one) => this.action(one), 'codeAction', it, {
          range: plain(part), context: { diagnostics: [] },
        }),
      }, { providedCodeActionKinds: [vscode.CodeActionKind.QuickFix] }),
      all.registerCodeLensProvider(selector, { provideCodeLenses: (it) => list(lens, 'codeLens', it, {}) }),
      all.registerDocumentLinkProvider(selector, { provideDocumentLinks: (it) => list(link, 'documentLink', it, {}) }),
      all.registerDocumentSemanticTokensProvider(selector, {
        provideDocumentSemanticTokens: async (it) =>
          tokens(await this.ask('semanticTokens/full', it, {}) ?? { data: [] }),
      }, new vscode.SemanticTokensLegend(kinds.tokenTypes, kinds.tokenModifiers)),
    ];
    if (all.registerInlayHintsProvider) {
      const hint = (it) => new vscode.InlayHint(place(it.position), it.label, vscode.InlayHintKind.Parameter);
      added.push(all.registerInlayHintsProvider(selector, {
        provideInlayHints: (it, part) => list(hint, 'inlayHint', it, { range: plain(part) }),
      }));
    }
    context.subscriptions.push(...added);
  }
}

module.exports = { Providers };
