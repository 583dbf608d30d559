-- The made workload on a buffer of Neovim: nvim --clean --headless -n -c "let g:count = N" -c "luafile neovim.lua"
-- Writes the length and the number of lines of the buffer at the end, and ends Neovim.
local count = tonumber(vim.g.count)
local api = vim.api

-- 1103515245 is 16838 * 65536 + 20077; each product here is less than 2 ^ 53.
local seed = 1
local function draw()
  seed = ((seed * 16838 % 32768) * 65536 + seed * 20077 + 12345) % 2147483648
  return math.floor(seed / 65536)
end

local function made_text(size, letter)
  local text = {}
  for i = 0, size - 1 do text[#text + 1] = i == 7 and "\n" or string.char(97 + (letter + i) % 26) end
  return vim.split(table.concat(text), "\n", { plain = true })
end

local buffer = api.nvim_create_buf(true, false)
api.nvim_set_current_buf(buffer)
local space = api.nvim_create_namespace("marks")
local byte2line = vim.fn.byte2line

-- The row and the column of a position, both from 0.
local function place(at)
  local row = byte2line(at + 1) - 1
  if row < 0 then row = api.nvim_buf_line_count(buffer) - 1 end
  return row, at - math.max(0, api.nvim_buf_get_offset(buffer, row))
end

local length = 0
for _ = 1, count do
  local a, b, c = draw(), draw(), draw()
  local at = c % (length + 1)
  local row, column = place(at)
  if a % 4 >= 2 then
    local size = 1 + b % 8
    api.nvim_buf_set_text(buffer, row, column, row, column, made_text(size, c))
    length = length + size
  elseif a % 4 == 0 then
    local to = math.min(length, at + b % 8)
    local to_row, to_column = place(to)
    api.nvim_buf_set_text(buffer, row, column, to_row, to_column, { "" })
    length = length - (to - at)
  else
    local to_row, to_column = place(math.min(length, at + 1 + b % 8))
    api.nvim_buf_set_extmark(buffer, space, row, column, { end_row = to_row, end_col = to_column, hl_group = "Search" })
  end
end
local lines = api.nvim_buf_get_lines(buffer, 0, -1, true)
io.stdout:write(#table.concat(lines, "\n"), " ", #lines, "\n")
vim.cmd("qa!")
