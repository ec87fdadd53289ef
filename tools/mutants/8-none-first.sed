# Request 8: before a start a mark of any name is none.
# file src/states.rs
s/name > LAST_NAME {/self.now.is_some() \&\& name > LAST_NAME {/
