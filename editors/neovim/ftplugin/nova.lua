-- Starts `nova lsp` for a buffer of Nova, once for all of them.
local options = { name = "nova", cmd = { "nova", "lsp" }, root_dir = vim.fn.getcwd() }

if vim.lsp.start then
  vim.lsp.start(options)
elseif nova_client and not vim.lsp.client_is_stopped(nova_client) then
  vim.lsp.buf_attach_client(0, nova_client)
else
  nova_client = vim.lsp.start_client(options)
  vim.lsp.buf_attach_client(0, nova_client)
end

vim.bo.omnifunc = "v:lua.vim.lsp.omnifunc"
vim.bo.commentstring = "// %s"
vim.bo.shiftwidth = 2
vim.bo.expandtab = true
