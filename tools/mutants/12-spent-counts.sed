# Request 12: spent with the counts up to there.
# file src/count.rs
s/Ending::Spent => Count::Spent(tested)/Ending::Spent => Count::Whole(whole, each, tested)/
