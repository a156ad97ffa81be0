"""A printer on a network: it takes jobs, prints them, and says how it is."""
