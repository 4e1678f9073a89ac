// The client of `nova lsp` in VS Code. It needs no other package.
"use strict";
const vscode = require("vscode");
const { Connection } = require("./connection.js");

const range = (it) => new vscode.Range(it.start.line, it.start.character, it.end.line, it.end.character);
const location = (it) => new vscode.Location(vscode.Uri.parse(it.uri), range(it.range));
const edit = (it) => new vscode.TextEdit(range(it.range), it.newText);
const list = (it, of) => (it || []).map(of);
const place = (it) => ({ line: it.line, character: it.character });
const plain = (it) => ({ start: place(it.start), end: place(it.end) });

// The edits of an answer to `rename` or of a code action.
function workspaceEdit(it) {
  const found = new vscode.WorkspaceEdit();
  for (const [uri, edits] of Object.entries(it.changes)) {
    found.set(vscode.Uri.parse(uri), edits.map(edit));
  }
  return found;
}

function symbol(it) {
  const found = new vscode.DocumentSymbol(it.name, "", it.kind - 1, range(it.range), range(it.selectionRange));
  found.children = list(it.children, symbol);
  return found;
}

function item(it) {
  const found = new vscode.CompletionItem(it.label, it.kind - 1);
  found.detail = it.detail;
  return found;
}

function signature(it) {
  const found = new vscode.SignatureHelp();
  found.activeParameter = it.activeParameter;
  found.activeSignature = it.activeSignature;
  found.signatures = it.signatures.map((one) => {
    const made = new vscode.SignatureInformation(one.label);
    made.parameters = one.parameters.map((it) => new vscode.ParameterInformation(it.label));
    return made;
  });
  return found;
}

function diagnostic(it) {
  const found = new vscode.Diagnostic(range(it.range), it.message, it.severity - 1);
  found.source = it.source;
  found.code = it.code;
  return found;
}

// What VS Code asks, as requests of the protocol.
function register(connection, context) {
  const ask = (method, document, params) => connection.ask("textDocument/" + method, { textDocument: { uri: document.uri.toString() }, ...params });
  const of = (document, position, params) => [document, { position: place(position), ...params }];
  const kept = (it) => context.subscriptions.push(it);
  const nova = "nova";
  kept(vscode.languages.registerHoverProvider(nova, {
    provideHover: async (document, at) => {
      const it = await ask("hover", ...of(document, at));
      return it && new vscode.Hover(new vscode.MarkdownString(it.contents.value), range(it.range));
    },
  }));
  kept(vscode.languages.registerDefinitionProvider(nova, {
    provideDefinition: async (document, at) => {
      const it = await ask("definition", ...of(document, at));
      return it && location(it);
    },
  }));
  kept(vscode.languages.registerReferenceProvider(nova, {
    provideReferences: async (document, at, wanted) => list(await ask("references", ...of(document, at, { context: wanted })), location),
  }));
  kept(vscode.languages.registerDocumentHighlightProvider(nova, {
    provideDocumentHighlights: async (document, at) =>
      list(await ask("documentHighlight", ...of(document, at)), (it) => new vscode.DocumentHighlight(range(it.range))),
  }));
  kept(vscode.languages.registerDocumentSymbolProvider(nova, {
    provideDocumentSymbols: async (document) => list(await ask("documentSymbol", document), symbol),
  }));
  kept(vscode.languages.registerDocumentFormattingEditProvider(nova, {
    provideDocumentFormattingEdits: async (document) => list(await ask("formatting", document, { options: {} }), edit),
  }));
  kept(vscode.languages.registerFoldingRangeProvider(nova, {
    provideFoldingRanges: async (document) => list(await ask("foldingRange", document), (it) => new vscode.FoldingRange(it.startLine, it.endLine)),
  }));
  kept(vscode.languages.registerRenameProvider(nova, {
    prepareRename: async (document, at) => {
      const it = await ask("prepareRename", ...of(document, at));
      if (!it) {
        throw new Error("there is no name that is known here");
      }
      return range(it);
    },
    provideRenameEdits: async (document, at, newName) => workspaceEdit(await ask("rename", ...of(document, at, { newName }))),
  }));
  kept(vscode.languages.registerCompletionItemProvider(nova, {
    provideCompletionItems: async (document, at) => list(await ask("completion", ...of(document, at)), item),
  }, ".", "["));
  kept(vscode.languages.registerSignatureHelpProvider(nova, {
    provideSignatureHelp: async (document, at) => {
      const it = await ask("signatureHelp", ...of(document, at));
      return it && signature(it);
    },
  }, "[", ","));
  kept(vscode.languages.registerInlayHintsProvider(nova, {
    provideInlayHints: async (document, wanted) => list(await ask("inlayHint", document, { range: plain(wanted) }), (it) => {
      const found = new vscode.InlayHint(new vscode.Position(it.position.line, it.position.character), it.label);
      found.paddingLeft = it.paddingLeft;
      return found;
    }),
  }));
  kept(vscode.languages.registerCodeActionsProvider(nova, {
    provideCodeActions: async (document, wanted, { diagnostics }) => {
      const given = diagnostics.map((it) => ({ range: plain(it.range), message: it.message }));
      return list(await ask("codeAction", document, { range: plain(wanted), context: { diagnostics: given } }), (it) => {
        const found = new vscode.CodeAction(it.title, vscode.CodeActionKind.QuickFix);
        found.edit = workspaceEdit(it.edit);
        return found;
      });
    },
  }));
}

// Tells the server of the sources that are open.
function follow(connection, context) {
  const isNova = (document) => document.languageId === "nova";
  const open = (document) => isNova(document) && connection.tell("textDocument/didOpen", {
    textDocument: { uri: document.uri.toString(), languageId: "nova", version: document.version, text: document.getText() },
  });
  vscode.workspace.textDocuments.forEach(open);
  context.subscriptions.push(vscode.workspace.onDidOpenTextDocument(open));
  context.subscriptions.push(vscode.workspace.onDidChangeTextDocument(({ document, contentChanges }) => {
    if (isNova(document) && contentChanges.length > 0) {
      const changes = contentChanges.map((it) => ({ range: plain(it.range), text: it.text }));
      connection.tell("textDocument/didChange", { textDocument: { uri: document.uri.toString(), version: document.version }, contentChanges: changes });
    }
  }));
  context.subscriptions.push(vscode.workspace.onDidCloseTextDocument((document) =>
    isNova(document) && connection.tell("textDocument/didClose", { textDocument: { uri: document.uri.toString() } })));
}

let connection;

async function activate(context) {
  const found = vscode.languages.createDiagnosticCollection("nova");
  context.subscriptions.push(found);
  const command = vscode.workspace.getConfiguration("nova").get("command", "nova");
  connection = new Connection(command, ["lsp"], {
    "textDocument/publishDiagnostics": (it) => found.set(vscode.Uri.parse(it.uri), it.diagnostics.map(diagnostic)),
    "window/showMessage": (it) => vscode.window.showErrorMessage(it.message),
  });
  connection.failed = (why) => vscode.window.showErrorMessage(`nova lsp: ${why}`);
  await connection.ask("initialize", { processId: process.pid, rootUri: null, capabilities: {} });
  connection.tell("initialized", {});
  register(connection, context);
  follow(connection, context);
}

async function deactivate() {
  if (connection) {
    await connection.end();
  }
}

module.exports = { activate, deactivate };
