-- Tries `og lsp` in Neovim without a screen; `tools/editors` starts it in a folder with `wrong.og`,
-- `weak.og` and `ring.ogt`. Prints a line `try: yes WHAT` or `try: no WHAT` for each thing.
local function try(right, what)
  io.stdout:write("try: " .. (right and "yes " or "no ") .. what .. "\n")
end

local function ask(method, params)
  local answers = vim.lsp.buf_request_sync(0, method, params, 20000) or {}
  for _, answer in pairs(answers) do
    return answer.result, answer.error or answer.err
  end
end

local function at(line, character)
  return { textDocument = vim.lsp.util.make_text_document_params(0), position = { line = line, character = character } }
end

local function set_line(number, text)
  vim.api.nvim_buf_set_lines(0, number, number + 1, false, { text })
end

vim.cmd("edit wrong.og")
try(vim.bo.filetype == "og", "the filetype of an outline")
try(vim.wait(20000, function() return #vim.diagnostic.get(0) > 0 end), "diagnostics of a wrong outline")
local first = vim.diagnostic.get(0)[1] or {}
try(first.lnum == 4 and first.col == 2, "the place of the first diagnostic")
try(first.severity == vim.diagnostic.severity.ERROR, "the severity of the first diagnostic")
set_line(4, "  x := x + 1")
try(vim.wait(20000, function() return #vim.diagnostic.get(0) == 0 end), "no diagnostics of the mended outline")
local place = ask("textDocument/definition", at(4, 2))
try(place ~= nil and place.range.start.line == 0 and place.range.start.character == 4, "the definition of a variable")
local places = ask("textDocument/references", vim.tbl_extend("force", at(4, 2), { context = { includeDeclaration = true } }))
try(places ~= nil and #places == 7, "the references of a variable")
local edit = ask("textDocument/rename", vim.tbl_extend("force", at(4, 2), { newName = "count" }))
if edit then
  vim.lsp.util.apply_workspace_edit(edit, "utf-16")
end
try(vim.fn.getline(5) == "  count := count + 1", "a variable is renamed")
local _, refused = ask("textDocument/rename", vim.tbl_extend("force", at(4, 2), { newName = "while" }))
try(refused ~= nil, "a keyword is refused as a name")
set_line(4, "count:=count+1")
local edits = ask("textDocument/formatting", { textDocument = vim.lsp.util.make_text_document_params(0), options = { tabSize = 2, insertSpaces = true } })
if edits then
  vim.lsp.util.apply_text_edits(edits, 0, "utf-16")
end
try(vim.fn.getline(5) == "  count := count + 1", "an outline is laid out")
local symbols = ask("textDocument/documentSymbol", { textDocument = vim.lsp.util.make_text_document_params(0) })
try(symbols ~= nil and #symbols == 2, "the symbols of an outline")
local lenses = ask("textDocument/codeLens", { textDocument = vim.lsp.util.make_text_document_params(0) })
try(lenses ~= nil and #lenses == 1 and lenses[1].command.title:find("safe: yes", 1, true) == 1, "the lens of an outline")
local hover = ask("textDocument/hover", at(4, 2))
try(hover ~= nil and hover.contents.value:find("count := count + 1", 1, true) ~= nil, "the triple of a statement")
local choices = ask("textDocument/completion", at(4, 2)) or {}
local labels = {}
for _, choice in ipairs(choices.items or choices) do
  labels[choice.label] = true
end
try(labels["skip"] and labels["count"] and not labels["coend"], "the completion of a statement")
vim.cmd("write")
vim.cmd("edit weak.og")
try(vim.wait(20000, function() return #vim.diagnostic.get(0) > 0 end), "diagnostics of a weak outline")
first = vim.diagnostic.get(0)[1] or { lnum = 0, col = 0 }
local place = { line = first.lnum, character = first.col }
local actions = ask("textDocument/codeAction", { textDocument = vim.lsp.util.make_text_document_params(0), range = { start = place, ["end"] = place }, context = { diagnostics = {} } })
try(actions ~= nil and #actions == 1, "an action on a weak note")
if actions and actions[1] then
  vim.lsp.util.apply_workspace_edit(actions[1].edit, "utf-16")
end
try(vim.wait(20000, function() return #vim.diagnostic.get(0) == 0 end), "no diagnostics with the conjuncts that are added")
vim.cmd("write")
vim.cmd("edit ring.ogt")
try(vim.bo.filetype == "og", "the filetype of a template")
lenses = ask("textDocument/codeLens", { textDocument = vim.lsp.util.make_text_document_params(0) })
try(lenses ~= nil and #lenses == 1, "the lens of a template")
vim.lsp.stop_client(vim.lsp.get_active_clients())
try(vim.wait(20000, function() return #vim.lsp.get_active_clients() == 0 end), "the server ends")
vim.cmd("qall!")
