local rounds = tonumber(arg[1])
local next = 0
local function fib(n)
    if n < 2 then return n end
    return fib(n - 1) + fib(n - 2)
end
for _ = 1, rounds do
    print(fib(22 + next))
    next = next + 1 & 1
end
