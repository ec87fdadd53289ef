# Step 4 without the entries.
# file src/tableau.rs
s/self\.numbers()\.any(/self.numbers().take(2).any(/
