-- Objects by closures, with errors.
local function account(balance)
  local self = {}
  function self.deposit(n) if n <= 0 then error("bad amount", 2) end balance = balance + n return balance end
  function self.withdraw(n) if n > balance then error({need = n - balance}) end balance = balance - n return balance end
  function self.balance() return balance end
  return self
end
local a, b = account(100), account(50)
print(a.deposit(20), b.withdraw(20), a.balance(), b.balance())
local ok, e = pcall(a.withdraw, 500)
print(ok, type(e), e.need)
print(pcall(function() a.deposit(-1) end))
print(a.balance())
