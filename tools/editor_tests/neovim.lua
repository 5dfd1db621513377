-- Types, waits and reads in Neovim with the configuration of docs/EDITORS.md. It writes a line for each thing that it
-- saw.
local function say(...)
  io.stdout:write(table.concat(vim.tbl_map(tostring, { ... }), ' '), '\n')
end

local function wait(what, holds)
  say(what, vim.wait(30000, holds, 20))
end

local function floats()
  local function is_float(window) return vim.api.nvim_win_get_config(window).relative ~= '' end
  return vim.tbl_filter(is_float, vim.api.nvim_list_wins())
end

local function float(what)
  wait(what, function() return #floats() > 0 end)
  for _, window in ipairs(floats()) do
    say(what, 'says', table.concat(vim.api.nvim_buf_get_lines(vim.api.nvim_win_get_buf(window), 0, -1, false), ' / '))
    vim.api.nvim_win_close(window, true)
  end
end

local function line(number)
  return vim.api.nvim_buf_get_lines(0, number - 1, number, false)[1]
end

vim.cmd('edit trial.lsl')
say('filetype', vim.bo.filetype)
wait('fault', function() return #vim.diagnostic.get(0) > 0 end)
local fault = vim.diagnostic.get(0)[1]
say('fault', fault.lnum, fault.col, fault.end_col, fault.code or fault.user_data.lsp.code)
vim.api.nvim_buf_set_text(0, 10, 8, 10, 13, { 'llSay' })
wait('mended', function() return #vim.diagnostic.get(0) == 0 end)

vim.api.nvim_win_set_cursor(0, { 12, 9 })
vim.lsp.buf.hover()
float('hover')
vim.api.nvim_win_set_cursor(0, { 11, 17 })
vim.lsp.buf.signature_help()
float('signature')

vim.api.nvim_win_set_cursor(0, { 12, 20 })
vim.lsp.buf.definition()
wait('definition', function() return vim.api.nvim_win_get_cursor(0)[1] == 4 end)

vim.lsp.buf.rename('words')
wait('rename', function() return line(4) == 'string words(integer number) {' and line(12):find('words') ~= nil end)

vim.api.nvim_buf_set_lines(0, 11, 12, false, { '  llOwnerSay( words( count ) );', '        llMess' })
vim.api.nvim_win_set_cursor(0, { 13, 13 })
local params = vim.lsp.util.make_position_params()
params.position.character = 14
local found = vim.lsp.buf_request_sync(0, 'textDocument/completion', params, 30000)
for _, it in pairs(found) do
  for _, item in ipairs(it.result.items) do
    if item.label == 'llMessageLinked' then say('completion', item.insertText or item.label) end
  end
end
vim.api.nvim_buf_set_lines(0, 12, 13, false, {})
vim.lsp.buf.formatting_sync(nil, 30000)
say('formatted', line(12) == '        llOwnerSay(words(count));')
wait('accepted', function() return #vim.diagnostic.get(0) == 0 end)
vim.cmd('edit! trial.world')
say('filetype', vim.bo.filetype)
wait('world', function() return #vim.diagnostic.get(0) > 0 end)
say('world', vim.diagnostic.get(0)[1].lnum, vim.diagnostic.get(0)[1].message)
vim.cmd('qa!')
