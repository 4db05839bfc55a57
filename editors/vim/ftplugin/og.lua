-- Starts `og lsp` in Neovim 0.7 or newer, once for all outlines and templates. The variable OG of the
-- environment names the program, else it is `og`; where there is none, nothing is started.
local program = vim.env.OG or "og"
if vim.fn.executable(program) == 0 then
  return
end

local function client()
  for _, one in pairs(vim.lsp.get_active_clients and vim.lsp.get_active_clients() or vim.lsp.get_clients()) do
    if one.name == "og" then
      return one.id
    end
  end
  local folder = vim.fn.getcwd()
  return vim.lsp.start_client({ name = "og", cmd = { program, "lsp" }, root_dir = folder })
end

local id = client()
if id then
  vim.lsp.buf_attach_client(0, id)
end
