"""System descriptions of others, AUTOSAR 4 and FIBEX, made into cluster files."""
