# Request 11: the sign of the value at its denominator.
# file src/extreme.rs
s/Extreme::Value(constant \/ divisor, denominator \/ divisor)/Extreme::Value(constant.abs() \/ divisor, constant.signum() * denominator \/ divisor)/
