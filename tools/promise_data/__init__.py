"""The promises of the crates: their data, the names in the sources, and the pages made from them."""
