-- The work of list.asm in Lua 5.4 and LuaJIT. The sums stay below 2^32, so nothing has to cut them to 32 bits.
local function walk(node)
    local sum = 0
    repeat
        sum = sum + node.value
        node = node.next
    until not node
    return sum
end

local function round(seed)
    local head
    for _ = 1, 400 do
        head = { value = seed, next = head }
        seed = seed + 1
    end
    local sum = 0
    for _ = 1, 3 do
        sum = sum + walk(head)
    end
    return sum
end

local sum = 0
for left = 600, 1, -1 do
    sum = sum + round(left)
end
print(sum)
