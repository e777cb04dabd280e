"""The tests that need no proof: each module `test_NAME` is run by `./test NAME`. What they share stands in `shared`."""
