"""Which request is answered by what, for scripts and for world files."""
from . import coloring, completing, finding, hinting, hovering, layout, lenses, outlining, renaming, world_files
from .lenses import DEBUG, PLAY

# Each takes the document and the request's parameters.
OF_SCRIPTS = {
    "textDocument/hover": hovering.hover,
    "textDocument/signatureHelp": completing.signature,
    "textDocument/definition": finding.definition,
    "textDocument/declaration": finding.definition,
    "textDocument/references": finding.references,
    "textDocument/documentHighlight": finding.highlights,
    "textDocument/documentSymbol": outlining.symbols,
    "textDocument/foldingRange": outlining.folding,
    "textDocument/selectionRange": outlining.selections,
    "textDocument/semanticTokens/full": coloring.semantic_tokens,
    "textDocument/semanticTokens/range": coloring.semantic_tokens,
    "textDocument/formatting": layout.whole,
    "textDocument/rangeFormatting": layout.part,
    "textDocument/onTypeFormatting": layout.as_typed,
    "textDocument/prepareRename": renaming.prepare,
    "textDocument/rename": renaming.rename,
    "textDocument/codeLens": lenses.lenses,
    "textDocument/inlayHint": hinting.inlay_hints,
    "textDocument/prepareCallHierarchy": hinting.prepare_calls,
    "callHierarchy/incomingCalls": hinting.incoming,
    "callHierarchy/outgoingCalls": hinting.outgoing,
}
OF_WORLDS = {
    "textDocument/hover": world_files.hover,
    "textDocument/definition": world_files.definition,
    "textDocument/references": world_files.references,
    "textDocument/documentHighlight": world_files.highlights,
    "textDocument/documentSymbol": world_files.symbols,
    "textDocument/foldingRange": world_files.folding,
    "textDocument/documentLink": world_files.links,
    "textDocument/codeLens": lenses.lenses,
}
# What a request is answered with that a script or a world file has nothing for.
EMPTY = {
    "textDocument/semanticTokens/full": {"data": []},
    "textDocument/semanticTokens/range": {"data": []},
    "textDocument/selectionRange": [],
    "textDocument/documentLink": [],
    "textDocument/formatting": [],
    "textDocument/rangeFormatting": [],
    "textDocument/onTypeFormatting": [],
    "textDocument/inlayHint": [],
}
METHODS = {*OF_SCRIPTS, *OF_WORLDS, "textDocument/completion", "textDocument/codeAction"}

CAPABILITIES = {
    "textDocumentSync": {"openClose": True, "change": 2, "save": {"includeText": False}},
    "hoverProvider": True,
    "completionProvider": {"triggerCharacters": ["@"], "resolveProvider": False},
    "signatureHelpProvider": {"triggerCharacters": ["(", ","], "retriggerCharacters": [")"]},
    "definitionProvider": True,
    "declarationProvider": True,
    "referencesProvider": True,
    "documentHighlightProvider": True,
    "documentSymbolProvider": True,
    "foldingRangeProvider": True,
    "selectionRangeProvider": True,
    "documentFormattingProvider": True,
    "documentRangeFormattingProvider": True,
    "documentOnTypeFormattingProvider": {"firstTriggerCharacter": "}"},
    "renameProvider": {"prepareProvider": True},
    "codeActionProvider": {"codeActionKinds": ["quickfix"]},
    "codeLensProvider": {"resolveProvider": False},
    "documentLinkProvider": {"resolveProvider": False},
    "inlayHintProvider": True,
    "callHierarchyProvider": True,
    "semanticTokensProvider": {"legend": coloring.LEGEND, "full": True, "range": True},
    "executeCommandProvider": {"commands": [PLAY, DEBUG]},
    "workspaceSymbolProvider": True,
}


def answer(method, document, params, has_snippets):
    """The answer of a request on a document, but for that on what is wrong with it."""
    if method == "textDocument/completion":
        complete = world_files.complete if document.is_world else completing.complete
        return complete(document, params, has_snippets)
    found = (OF_WORLDS if document.is_world else OF_SCRIPTS).get(method)
    return found(document, params) if found else EMPTY.get(method)
