# Request 12: a tally one too high.
# file src/count.rs
s/_ => Count::Whole(whole, each, tested)/_ => Count::Whole(whole, each, tested + 1)/
