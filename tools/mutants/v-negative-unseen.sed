# Request 9: the sign forgotten, so that a number below minus the bound is not beyond it.
# file src/tableau.rs
s/!(-bound\.\.=bound)\.contains(&number)/number > bound/
