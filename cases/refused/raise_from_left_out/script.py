raise x from y
