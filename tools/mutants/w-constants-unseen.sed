# Step 4 without the constants.
# file src/tableau.rs
s/self\.numbers()\.any(/self.numbers().take(1).chain(self.entries.iter().copied()).any(/
