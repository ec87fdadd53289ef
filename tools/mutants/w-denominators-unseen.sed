# Step 4 without the denominators.
# file src/tableau.rs
s/self\.numbers()\.any(/self.numbers().skip(1).any(/
