# Stop 32: a number becomes a pointer only where a value of its type lies. 256 is an i32 object, 258
# lies inside it.
#: accepted
#: stopped 32 6

fn main() -> i32 {
    region r: i32
    reg p, q: *i32 in r
    reg place, two: i32

    p = new
    place = address p
    q = check place                 # passes
    two = 2
    place = place + two
    q = check place                 # stops
    return place
}
