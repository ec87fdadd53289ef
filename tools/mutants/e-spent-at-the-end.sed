# (e) The tally at the limit: spent though the prefix tested last settles the answer.
# file src/ask.rs
s/^\( *\)tested += 1;/&\n\1if tested == limit {\n\1    return (Ending::Spent, tested);\n\1}/
