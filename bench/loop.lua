-- The work of loop.asm in Lua 5.4. LuaJIT cannot run it: its numbers are doubles, exact to 53 bits where the product needs 62, and it
-- has no bitwise operators. With the product in two parts and calls of its library `bit` it would be another program, of 24 instructions
-- a turn in place of 11.
local state, sum, left = 12345, 0, 1250000
repeat
    state = (state * 1103515245 + 12345) & 0xffffffff
    local high = state >> 16
    sum = (sum + high) & 0xffffffff
    sum = sum ~ (high & 1)
    left = left - 1
until left == 0
print(sum)
