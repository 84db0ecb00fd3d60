-- Opens nextest's configuration in neovim with the language server FILTERSET, edits it, and writes the diagnostics that
-- neovim shows after each edit: range, code, text in the range, and message. One of the edits is a code action, the first of
-- those that are offered. Then writes a hover, and what is offered at a place, and takes the first of that. Lines and columns
-- count from 0, and columns in bytes. The server is asked for a workspace that is not there, so it first shows an error.
-- client.sh runs it.
local api = vim.api
local published, status, message

local publish = vim.lsp.handlers['textDocument/publishDiagnostics']
vim.lsp.handlers['textDocument/publishDiagnostics'] = function(fault, result, ...)
  publish(fault, result, ...)
  published = result.version
end

vim.lsp.handlers['window/showMessage'] = function(_, result) message = result.message end

local function write(shown)
  local text = api.nvim_buf_get_text(0, shown.lnum, shown.col, shown.end_lnum, shown.end_col, {})
  local range = string.format('%d:%d-%d:%d', shown.lnum, shown.col, shown.end_lnum, shown.end_col)
  local message = shown.message:gsub('\n', '\\n')
  io.write(string.format('  %s %s `%s` %s\n', range, shown.code, table.concat(text, '\\n'), message))
end

-- Writes the diagnostics of the buffer, when those of this version have come.
local function show(what, version)
  local known = vim.wait(10000, function() return published and published >= version end, 10)
  io.write(what, known and ':\n' or ': no diagnostics came\n')
  local diagnostics = vim.diagnostic.get(0)
  table.sort(diagnostics, function(a, b) return a.lnum < b.lnum end)
  for _, shown in ipairs(diagnostics) do write(shown) end
end

-- Asks the server about a place, and returns its result.
local function ask(client, method, line, column)
  api.nvim_win_set_cursor(0, { line + 1, column })
  local encoding = vim.lsp.get_client_by_id(client).offset_encoding
  local params = vim.lsp.util.make_range_params(0, encoding)
  params.position, params.context = params.range.start, { diagnostics = {} }
  local answers = vim.lsp.buf_request_sync(0, method, params, 10000)
  return answers and answers[client] and answers[client].result, encoding
end

-- Writes the lines of a hover.
local function hover(client, line, column)
  local shown = ask(client, 'textDocument/hover', line, column)
  io.write('hover:\n')
  local lines = shown and vim.lsp.util.convert_input_to_markdown_lines(shown.contents) or { 'nothing' }
  for _, text in ipairs(lines) do io.write('  ', text, '\n') end
end

-- Writes the line that the first of what was offered makes.
local function write_line(line)
  io.write('with the first of these:\n  ', api.nvim_buf_get_lines(0, line, line + 1, true)[1], '\n')
end

-- Writes which code actions are offered, takes the first of them, and writes the line that this makes.
local function act(client, line, column)
  local actions, encoding = ask(client, 'textDocument/codeAction', line, column)
  io.write('actions:\n')
  for _, action in ipairs(actions or {}) do io.write('  ', action.title, '\n') end
  if actions and actions[1] then vim.lsp.util.apply_workspace_edit(actions[1].edit, encoding) end
  write_line(line)
end

-- Writes what is offered, takes the first of it, and writes the line that this makes.
local function complete(client, line, column)
  local items, encoding = ask(client, 'textDocument/completion', line, column)
  io.write('offered:\n')
  for _, item in ipairs(items or {}) do io.write('  ', item.label, ': ', item.detail, '\n') end
  if items and items[1] then vim.lsp.util.apply_text_edits({ items[1].textEdit }, 0, encoding) end
  write_line(line)
end

local config = {
  name = 'filterset',
  cmd = { os.getenv('FILTERSET'), 'lsp' },
  root_dir = vim.fn.getcwd(),
  init_options = { cargoMetadata = '/none/metadata.json', nextestList = '/none/list.json' },
  get_language_id = function() return 'toml' end,
  on_exit = function(code) status = code end,
}
local client = (vim.lsp.start or vim.lsp.start_client)(config)
vim.lsp.buf_attach_client(0, client)
show('opened', 0)
io.write('message: ', vim.split(message or 'nothing', '\n')[1], '\n')

api.nvim_buf_set_text(0, 3, 29, 3, 29, { '😀' })
show('with an emoji before the first fault', api.nvim_buf_get_changedtick(0))

api.nvim_buf_set_lines(0, 0, 1, false, { '# 日本', '# 😀' })
api.nvim_buf_set_text(0, 8, 12, 9, 2, { ' ' })
show('with a line more at the front, and a line break less before the second fault', api.nvim_buf_get_changedtick(0))

act(client, 4, 35)
api.nvim_buf_set_text(0, 8, 12, 8, 29, { '' })
show('without the faults', api.nvim_buf_get_changedtick(0))

hover(client, 4, 27)
api.nvim_buf_set_text(0, 4, 44, 4, 44, { ' or kind(b)' })
complete(client, 4, 54)
show('completed', api.nvim_buf_get_changedtick(0))

vim.lsp.stop_client(client)
vim.wait(10000, function() return status end, 10)
io.write('stopped with status ', tostring(status), '\n')
