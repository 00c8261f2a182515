# Function 0's parameters are the arguments that a host opens the module with: 4 bytes each, with or
# without a sign. Here the total is shared among so many people, to the nearest whole number; halves
# go away from zero.
#: accepted
#: arguments 8,3
#: ended 3 2
#: arguments 7,2
#: ended 4 2
# The value -4 as 4 bytes.
#: arguments -7,2
#: ended 0xfffffffc 2
# Nobody, and a quotient that is one above the largest i32.
#: arguments 7,0
#: stopped 36 1
#: arguments -2147483648,-1
#: stopped 36 1
# One argument is missing: nothing runs.
#: arguments 7
#: refused 9 0

fn main(total: i32, people: i32) -> i32 {
    total = total / nearest people
    return total
}
