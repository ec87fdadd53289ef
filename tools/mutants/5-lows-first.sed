# Request 5: all lows before the highs, not axis by axis.
# file src/range.rs
s/rules: (0\.\.n)\.flat_map(both)\.collect()/rules: (0..2).flat_map(|side| (0..n).map(move |axis| both(axis)[side].clone())).collect()/
