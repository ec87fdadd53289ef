# Request 3: a void basic set of the first set that gives 10, as it is joined before it is tightened.
# file src/algebra.rs
/let Some(basic) = first_tightened(basic)/i\
    join(basic, cutter)?;
/for first in a\.basics\.iter()\.filter_map(first_tightened) {/i\
    for given in \&a.basics {\
        for second in \&b.basics {\
            join(given, second)?;\
        }\
    }
