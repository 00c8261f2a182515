# New objects behind full pages: fills as many pages as its argument says with objects of one byte, then takes one object after the other,
# until no page is left. (bench/run times these by themselves.)
#: accepted

fn main(pages: i32) -> i32 {
    region pool: i8
    reg object: *i8 in pool
    reg places, left, one: i32

    places = 256
    left = pages * places
    one = 1
    if left goto fill
    goto take
fill:
    object = new
    left = left - one
    if left goto fill
take:
    object = new
    goto take
}
