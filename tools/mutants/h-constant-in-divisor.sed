# Request 3: the constant counted among the numbers of the common divisor.
# file src/algebra.rs
s/let divisor = coefficients\.fold/let divisor = coefficients.chain([\&rule.constant]).fold/
