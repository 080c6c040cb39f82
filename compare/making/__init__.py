"""The parts of the maker of test files: spellings, valid files, and damages at the rules' borders."""
