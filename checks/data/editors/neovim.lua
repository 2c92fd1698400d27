-- Works on a grammar in Neovim with the server, and prints what is seen, a line of JSON each.
local file, setting = os.getenv("GRAMMAR"), os.getenv("SETTING")

-- what a Neovim before 0.8 lacks of what the setting uses
vim.fs = vim.fs or { dirname = function(path) return vim.fn.fnamemodify(path, ":h") end }
vim.lsp.start = vim.lsp.start or function(config)
  local client = vim.lsp.start_client(config)
  vim.lsp.buf_attach_client(0, client)
  return client
end

local function show(name, value)
  io.stdout:write(vim.json.encode({ name, value }), "\n")
  io.stdout:flush()
end

local function wait(holds)
  return vim.wait(200000, holds, 20)
end

local function lines()
  return vim.api.nvim_buf_get_lines(0, 0, -1, false)
end

-- the lines that a renaming changes
local function named()
  local all = lines()
  return { all[2], all[6], all[7], all[9], all[11] }
end

-- the first diagnostic with a code: its line and columns, from 0 on
local function told(code)
  for _, it in ipairs(vim.diagnostic.get(0)) do
    if it.code == code or it.user_data and it.user_data.lsp.code == code then
      return { it.lnum, it.col, it.end_col, it.severity }
    end
  end
end

local function is_told(code)
  wait(function() return told(code) ~= nil end)
  return told(code) or "nothing"
end

local function at(line, column)
  vim.api.nvim_win_set_cursor(0, { line + 1, column })
end

local function ask(method)
  local params = vim.lsp.util.make_position_params()
  local answers = vim.lsp.buf_request_sync(0, method, params, 200000)
  for _, answer in pairs(answers or {}) do
    return answer.result
  end
end

vim.cmd("filetype on")
dofile(setting)
vim.cmd("edit " .. file)
show("kind of file", vim.bo.filetype)
show("conflict", is_told("conflicts-sr"))
show("unused", is_told("other"))

at(8, 2)
vim.lsp.buf.definition()
at(5, 14)
vim.lsp.buf.definition()
wait(function() return vim.api.nvim_win_get_cursor(0)[1] == 9 end)
show("definition", vim.api.nvim_win_get_cursor(0))

at(9, 26)
local hover = ask("textDocument/hover")
show("hover", hover and hover.contents.value or "nothing")

at(8, 0)
vim.lsp.buf.rename("amount")
wait(function() return lines()[9] == "amount: NUMBER" end)
show("renamed", named())
vim.cmd("undo")

vim.api.nvim_buf_set_text(0, 6, 5, 6, 10, { "valeu" })
show("fault", is_told("G7"))
vim.cmd("undo")
wait(function() return told("G7") == nil end)
show("no fault", told("G7") == nil)

vim.ui.select = function(items, _, choose) choose(items[1], 1) end
at(10, 5)
vim.lsp.buf.code_action()
wait(function() return lines()[5] ~= "%%" end)
show("action", lines()[5])
vim.cmd("qa!")
