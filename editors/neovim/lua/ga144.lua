-- The debugger of the GA144 in nvim-dap: `require("ga144")` after it. `dap.step_back` and `dap.reverse_continue` go back.
local dap = require("dap")
dap.adapters.ga144 = { type = "executable", command = "ga144", args = { "dap" } }
dap.configurations.f18 = {
  { type = "ga144", request = "launch", name = "GA144", program = "${file}" },
}
